//! 01's table: its bytes read with refusals 4 and 5, and written; the plain table.

use crate::bytes::{Reader, Refusal, TOP, refuse};

#[derive(Debug, Clone, PartialEq)]
pub struct Record {
    pub character: char,
    pub kind: String,
    pub rom: Option<String>,
    pub value: Option<u64>,
    pub fraction: Option<(u64, u64)>,
    pub base: Option<u64>,
    pub mult: Option<u64>,
    pub script: Option<String>,
    pub is_large_power: bool,
}

impl Record {
    /// A record with a type and nothing else.
    pub fn new(character: char, kind: &str) -> Self {
        Record {
            character,
            kind: kind.into(),
            rom: None,
            value: None,
            fraction: None,
            base: None,
            mult: None,
            script: None,
            is_large_power: false,
        }
    }
}

/// Lists in 01's order: percentage markers, fraction connectors, plus signs, minus signs.
#[derive(Debug, Clone, Default, PartialEq)]
pub struct Table {
    pub lists: [Vec<String>; 4],
    pub records: Vec<Record>,
}

/// The length and bytes of a string; `None` for a length over 60 too.
fn string<'a>(r: &mut Reader<'a>) -> Option<&'a [u8]> {
    let length = r.u8().filter(|&n| n <= 60)?;
    r.take(length.into())
}

/// A record's bytes before their content is looked at.
struct Layout<'a> {
    code: u32,
    kind: &'a [u8],
    rom: Option<&'a [u8]>,
    value: Option<u64>,
    fraction: Option<(u64, u64)>,
    base: Option<u64>,
    mult: Option<u64>,
    script: Option<&'a [u8]>,
    large: bool,
}

/// `read` where the bit stands. The outer `None` is a fault in the layout.
fn field<T>(stands: bool, read: impl FnOnce() -> Option<T>) -> Option<Option<T>> {
    if stands { read().map(Some) } else { Some(None) }
}

fn layout<'a>(r: &mut Reader<'a>) -> Option<Layout<'a>> {
    let code = r.u32()?;
    let map = r.u8().filter(|map| map & 0x80 == 0)?;
    let bit = |n: u8| map >> n & 1 == 1;
    Some(Layout {
        code,
        kind: string(r)?,
        rom: field(bit(0), || string(r))?,
        value: field(bit(1), || r.u64())?,
        fraction: field(bit(2), || Some((r.u64()?, r.u64()?)))?,
        base: field(bit(3), || r.u64())?,
        mult: field(bit(4), || r.u64())?,
        script: field(bit(5), || string(r))?,
        large: bit(6),
    })
}

fn text(bytes: &[u8]) -> Option<String> {
    String::from_utf8(bytes.into()).ok()
}

fn number(n: u64) -> Option<u64> {
    (n <= TOP).then_some(n)
}

/// The record, or `None` for a fault in its content.
fn content(l: Layout, before: Option<char>) -> Option<Record> {
    let record = Record {
        character: char::from_u32(l.code).filter(|&c| before.is_none_or(|b| b < c))?,
        kind: text(l.kind)?,
        rom: field(l.rom.is_some(), || text(l.rom?))?,
        value: field(l.value.is_some(), || number(l.value?))?,
        fraction: field(l.fraction.is_some(), || {
            let (numerator, denominator) = l.fraction?;
            Some((number(numerator)?, number(denominator).filter(|&d| d > 0)?))
        })?,
        base: field(l.base.is_some(), || number(l.base?).filter(|&b| b > 0))?,
        mult: field(l.mult.is_some(), || number(l.mult?))?,
        script: field(l.script.is_some(), || text(l.script?))?,
        is_large_power: l.large,
    };
    // A digit's rom is that one ASCII digit: D1 puts these in a row and reads them as a number.
    if let ("digit", Some(digit @ 0..=9)) = (record.kind.as_str(), record.value)
        && record.rom != Some(digit.to_string())
    {
        return None;
    }
    Some(record)
}

impl Table {
    /// Reads 01's bytes. The first faulty item decides; within an item layout (4) before content (5).
    pub fn decode(bytes: &[u8]) -> Result<Table, Refusal> {
        let mut r = Reader::new(bytes);
        let mut table = Table::default();
        let Some(records) = r.u16() else { return refuse(4, 0) };
        for list in &mut table.lists {
            let at = r.at;
            let Some(count) = r.u8() else { return refuse(4, at) };
            for _ in 0..count {
                let at = r.at;
                let Some(bytes) = string(&mut r) else { return refuse(4, at) };
                let Some(s) = text(bytes).filter(|s| !s.is_empty()) else { return refuse(5, at) };
                list.push(s);
            }
        }
        for _ in 0..records {
            let at = r.at;
            let Some(layout) = layout(&mut r) else { return refuse(4, at) };
            let before = table.records.last().map(|r: &Record| r.character);
            let Some(record) = content(layout, before) else { return refuse(5, at) };
            table.records.push(record);
        }
        if r.done() { Ok(table) } else { refuse(4, r.at) }
    }

    pub fn encode(&self) -> Vec<u8> {
        let mut out = (self.records.len() as u16).to_le_bytes().to_vec();
        for list in &self.lists {
            out.push(list.len() as u8);
            for s in list {
                put_string(&mut out, s);
            }
        }
        for record in &self.records {
            put_record(&mut out, record);
        }
        out
    }

    /// 01's plain table: sixteen characters in rising code point.
    pub fn plain() -> Table {
        let mut records = Vec::new();
        for (character, value) in "零一二三四五六七八九".chars().zip(0..) {
            records.push(plain_record(character, "digit", value, 1, false));
        }
        for (character, value) in "十百千".chars().zip([10, 100, 1000]) {
            records.push(plain_record(character, "base", value, value, false));
        }
        for (character, value) in "万億兆".chars().zip([10_000, 100_000_000, 1_000_000_000_000]) {
            records.push(plain_record(character, "large", value, value, true));
        }
        records.sort_by_key(|r| r.character);
        let lists = ["百分之", "分之", "+", "-"].map(|s| vec![s.into()]);
        Table { lists, records }
    }
}

fn plain_record(character: char, kind: &str, value: u64, base: u64, large: bool) -> Record {
    Record {
        rom: Some(value.to_string()),
        value: Some(value),
        base: Some(base),
        script: Some("CJK".into()),
        is_large_power: large,
        ..Record::new(character, kind)
    }
}

fn put_string(out: &mut Vec<u8>, s: &str) {
    out.push(s.len() as u8);
    out.extend(s.bytes());
}

fn put_record(out: &mut Vec<u8>, r: &Record) {
    let bits = [
        r.rom.is_some(),
        r.value.is_some(),
        r.fraction.is_some(),
        r.base.is_some(),
        r.mult.is_some(),
        r.script.is_some(),
        r.is_large_power,
    ];
    out.extend((r.character as u32).to_le_bytes());
    out.push(bits.iter().rev().fold(0, |map, &bit| map << 1 | u8::from(bit)));
    put_string(out, &r.kind);
    if let Some(rom) = &r.rom {
        put_string(out, rom);
    }
    let (numerator, denominator) = r.fraction.unzip();
    for n in [r.value, numerator, denominator, r.base, r.mult].into_iter().flatten() {
        out.extend(n.to_le_bytes());
    }
    if let Some(script) = &r.script {
        put_string(out, script);
    }
}
