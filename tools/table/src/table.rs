//! A table as a value, its bytes, and the library's refusal of them in words.

use rilvostam::Refusal;

pub const TOP: u64 = 9_007_199_254_740_991;

/// A string, with the line of the text where it stands.
#[derive(Clone, Debug, PartialEq)]
pub struct Mark {
    pub text: String,
    pub line: usize,
}

#[derive(Clone, Debug, Default, PartialEq)]
pub struct Record {
    pub code_point: u32,
    pub kind: String,
    pub rom: Option<String>,
    pub value: Option<u64>,
    pub fraction: Option<(u64, u64)>,
    pub base: Option<u64>,
    pub mult: Option<u64>,
    pub script: Option<String>,
    pub large_power: bool,
    pub line: usize,
}

/// The lists are in 01's order: percentage markers, fraction connectors, plus signs, minus signs.
#[derive(Clone, Debug, Default, PartialEq)]
pub struct Table {
    pub lists: [Vec<Mark>; 4],
    pub records: Vec<Record>,
}

/// An item of a table's bytes, as the library's refusals name it.
#[derive(Clone, Copy)]
pub enum Item<'a> {
    /// A count, which no line of the text says.
    Count,
    Mark(&'a Mark),
    /// A record, and the one before it.
    Record(&'a Record, Option<&'a Record>),
}

impl Item<'_> {
    pub fn line(&self) -> Option<usize> {
        match self {
            Item::Count => None,
            Item::Mark(mark) => Some(mark.line),
            Item::Record(record, _) => Some(record.line),
        }
    }

    /// Why the library refused it.
    fn why(&self, refusal: Refusal) -> String {
        let known = match self {
            Item::Count => None,
            Item::Mark(mark) if mark.text.is_empty() => Some("an empty marker, connector or sign".into()),
            Item::Mark(mark) => over_long("string", &mark.text),
            Item::Record(record, before) => record.why(*before),
        };
        known.unwrap_or(refusal.sentence().into())
    }
}

/// The bytes of a table, and where each item begins.
pub struct Bytes<'a> {
    pub bytes: Vec<u8>,
    pub items: Vec<(usize, Item<'a>)>,
}

impl Bytes<'_> {
    /// The item that stands at an offset.
    pub fn item_at(&self, offset: usize) -> Item<'_> {
        self.items.iter().rev().find(|(at, _)| *at <= offset).map_or(Item::Count, |(_, item)| *item)
    }

    /// The library's refusal, in words.
    pub fn refusal(&self) -> Option<String> {
        let refusal = rilvostam::check_table(&self.bytes).err()?;
        let item = self.item_at(refusal.at as usize);
        let line = item.line().map_or(String::new(), |line| format!("line {line}: "));
        Some(format!("{line}{} (refusal {})", item.why(refusal), refusal.number()))
    }
}

fn over_long(name: &str, text: &str) -> Option<String> {
    (text.len() > 60).then(|| format!("a {name} of {} bytes; 60 are allowed", text.len()))
}

impl Table {
    /// The bytes, or why the form has no room for them.
    pub fn bytes(&self) -> Result<Bytes<'_>, String> {
        if let Some(record) = self.records.get(65_535) {
            return Err(format!("line {}: over 65,535 records: their count has 16 bits", record.line));
        }
        let mut bytes = (self.records.len() as u16).to_le_bytes().to_vec();
        let mut items = vec![(0, Item::Count)];
        for list in &self.lists {
            if let Some(mark) = list.get(255) {
                return Err(format!("line {}: over 255 strings in a list: their count has 8 bits", mark.line));
            }
            items.push((bytes.len(), Item::Count));
            bytes.push(list.len() as u8);
            for mark in list {
                items.push((bytes.len(), Item::Mark(mark)));
                put_string(&mut bytes, &mark.text, mark.line)?;
            }
        }
        let mut before = None;
        for record in &self.records {
            items.push((bytes.len(), Item::Record(record, before)));
            record.put(&mut bytes)?;
            before = Some(record);
        }
        Ok(Bytes { bytes, items })
    }
}

impl Record {
    /// What the library refuses in a record; `None` where these words have nothing for it.
    fn why(&self, before: Option<&Record>) -> Option<String> {
        let strings = [("type", Some(&self.kind)), ("rom", self.rom.as_ref()), ("script", self.script.as_ref())];
        let long = strings.into_iter().find_map(|(name, text)| over_long(name, text?));
        let (numerator, denominator) = self.fraction.unzip();
        let numbers = [("value", self.value), ("numerator", numerator), ("denominator", denominator), ("base", self.base), ("mult", self.mult)];
        let above = numbers.into_iter().find(|(_, number)| number.is_some_and(|n| n > TOP));
        let same = before.filter(|b| b.code_point == self.code_point);
        if long.is_some() {
            long
        } else if char::from_u32(self.code_point).is_none() {
            Some(format!("U+{:04X} is no scalar value", self.code_point))
        } else if let Some(first) = same {
            Some(format!("{} has a record in line {} already", crate::text::character(self.code_point), first.line))
        } else if let Some((name, _)) = above {
            Some(format!("a {name} above {TOP}"))
        } else if self.base == Some(0) || denominator == Some(0) {
            Some("a base or denominator of 0".into())
        } else if self.kind == "digit" && self.value.is_some_and(|v| v <= 9) {
            Some("a digit 0 to 9 whose rom is not that ASCII digit".into())
        } else {
            None
        }
    }

    fn put(&self, out: &mut Vec<u8>) -> Result<(), String> {
        out.extend(self.code_point.to_le_bytes());
        let bits = [
            self.rom.is_some(),
            self.value.is_some(),
            self.fraction.is_some(),
            self.base.is_some(),
            self.mult.is_some(),
            self.script.is_some(),
            self.large_power,
        ];
        out.push(bits.iter().rev().fold(0, |map, &bit| map << 1 | u8::from(bit)));
        put_string(out, &self.kind, self.line)?;
        if let Some(rom) = &self.rom {
            put_string(out, rom, self.line)?;
        }
        let (numerator, denominator) = self.fraction.unzip();
        for number in [self.value, numerator, denominator, self.base, self.mult].into_iter().flatten() {
            out.extend(number.to_le_bytes());
        }
        self.script.iter().try_for_each(|script| put_string(out, script, self.line))
    }
}

fn put_string(out: &mut Vec<u8>, text: &str, line: usize) -> Result<(), String> {
    let length = u8::try_from(text.len()).map_err(|_| format!("line {line}: a string of {} bytes; 60 are allowed", text.len()))?;
    out.push(length);
    out.extend(text.bytes());
    Ok(())
}
