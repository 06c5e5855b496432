//! A table's bytes as a value. The library has accepted them.

use crate::table::{Mark, Record, Table};

struct Reader<'a> {
    bytes: &'a [u8],
    at: usize,
}

impl Reader<'_> {
    fn take<const N: usize>(&mut self) -> Option<[u8; N]> {
        let bytes = self.bytes.get(self.at..self.at + N)?.try_into().ok()?;
        self.at += N;
        Some(bytes)
    }

    fn number(&mut self) -> Option<u64> {
        self.take().map(u64::from_le_bytes)
    }

    fn string(&mut self) -> Option<String> {
        let [length] = self.take()?;
        let bytes = self.bytes.get(self.at..self.at + usize::from(length))?;
        self.at += usize::from(length);
        String::from_utf8(bytes.into()).ok()
    }

    /// A field that is there if a bit stands.
    fn field<T>(&mut self, bit: u8, read: impl Fn(&mut Self) -> Option<T>) -> Option<Option<T>> {
        if bit & 1 == 1 { read(self).map(Some) } else { Some(None) }
    }

    fn table(&mut self) -> Option<Table> {
        let count = u16::from_le_bytes(self.take()?);
        let mut table = Table::default();
        for list in &mut table.lists {
            let [length] = self.take()?;
            for _ in 0..length {
                list.push(Mark { text: self.string()?, line: 0 });
            }
        }
        for _ in 0..count {
            table.records.push(self.record()?);
        }
        Some(table)
    }

    fn record(&mut self) -> Option<Record> {
        let code_point = u32::from_le_bytes(self.take()?);
        let [map] = self.take()?;
        Some(Record {
            code_point,
            kind: self.string()?,
            rom: self.field(map, Self::string)?,
            value: self.field(map >> 1, Self::number)?,
            fraction: self.field(map >> 2, |r| Some((r.number()?, r.number()?)))?,
            base: self.field(map >> 3, Self::number)?,
            mult: self.field(map >> 4, Self::number)?,
            script: self.field(map >> 5, Self::string)?,
            large_power: map >> 6 & 1 == 1,
            line: 0,
        })
    }
}

/// The table that the bytes are, which the library has accepted.
pub fn table(bytes: &[u8]) -> Table {
    let mut reader = Reader { bytes, at: 0 };
    reader.table().expect("the library accepted the table")
}
