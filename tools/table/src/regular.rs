//! Whether a table is regular: each record is a digit, a unit, a large power, or any other that has no value. docs/PROVED.md, "For makers", says what follows.

use crate::table::{Record, Table};

/// 零 and 〇.
const GAPS: [u32; 2] = [0x96F6, 0x3007];

impl Table {
    /// The first record that is of none of the four kinds, and why: the field comes first.
    pub fn irregular(&self) -> Option<(&Record, &'static str)> {
        self.records.iter().find_map(|record| record.irregular().map(|why| (record, why)))
    }
}

impl Record {
    fn irregular(&self) -> Option<&'static str> {
        let gap = GAPS.contains(&self.code_point);
        match (self.value, self.base) {
            (None, _) if gap => Some("value: it is missing, and 零 and 〇 join other characters without one"),
            (None, Some(base)) if base > 1 && !self.large_power => Some("base: it is above 1 without a value, and not a large power's"),
            (None, _) => None,
            (Some(0..=9), _) if self.kind != "digit" => Some("type: a value of 0 to 9 is a digit's, whose type is \"digit\""),
            (Some(0..=9), base) if base != Some(1) => Some("base: a value of 0 to 9 is a digit's, whose base is 1"),
            (Some(0..=9), _) if self.large_power => Some("large: a value of 0 to 9 is a digit's, which is no large power"),
            (Some(0..=9), _) => None,
            (Some(_), None | Some(0..=1)) => Some("base: a value of 10 or more is a unit's or a large power's, whose base is 2 or more"),
            (Some(_), Some(_)) if self.large_power => None,
            (Some(value), Some(base)) if base > value => Some("base: that of a unit is not above its value"),
            (Some(_), Some(_)) if gap => Some("character: 零 and 〇 are no units"),
            (Some(_), Some(_)) => None,
        }
    }
}

#[cfg(test)]
mod tests {
    use crate::{read, text};

    /// The field of the first record of none of the four kinds, and its line.
    fn field(table: &str) -> Option<(String, usize)> {
        text::read(table).unwrap().irregular().map(|(r, why)| (why.split(':').next().unwrap().into(), r.line))
    }

    #[test]
    fn the_field_is_named() {
        for (record, named) in [
            ("type=x value=5 rom=5 base=1", "type"),
            ("type=digit value=5 rom=5", "base"),
            ("type=digit value=5 rom=5 base=2", "base"),
            ("type=digit value=5 rom=5 base=1 large", "large"),
            ("type=digit value=10 base=1", "base"),
            ("type=x value=10 base=11", "base"),
            ("type=x base=2", "base"),
        ] {
            assert_eq!(field(&format!("record a type=x\nrecord b {record}\n")), Some((named.into(), 2)));
        }
        assert_eq!(field("record 〇 type=x value=10 base=10\n"), Some(("character".into(), 1)));
        assert_eq!(field("record 〇 type=x\n"), Some(("value".into(), 1)));
        assert_eq!(field("record 〇 type=x value=10 base=11 large\nrecord 十 type=x value=10 base=10\n"), None);
    }

    fn unhex(digits: &str) -> Vec<u8> {
        (0..digits.len() / 2).map(|i| u8::from_str_radix(&digits[2 * i..2 * i + 2], 16).unwrap()).collect()
    }

    /// The tables that the gate replays against the library: the same record is named.
    #[test]
    fn as_the_library_says() {
        let tables = include_str!("../../../crates/regular_vectors/stdin");
        let answers = include_str!("../../../crates/regular_vectors/stdout");
        let mut tried = 0;
        for (table, answer) in tables.lines().zip(answers.lines()) {
            let (digits, name) = table.split_once(' ').unwrap();
            if answer.starts_with("refused") {
                continue;
            }
            let table = read::table(&unhex(digits));
            let items = table.bytes().unwrap().items;
            let first = items.len() - table.records.len();
            let told = match table.irregular() {
                None => format!("regular {name}"),
                Some((record, _)) => {
                    let index = table.records.iter().position(|r| r == record).unwrap();
                    format!("not regular {} {name}", items[first + index].0)
                }
            };
            assert_eq!(told, answer);
            tried += 1;
        }
        assert!(tried > 40);
    }
}
