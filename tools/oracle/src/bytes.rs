//! Little-endian numbers and strings of bytes, read from the front; and 01's refusals.

/// 01's TOP, the largest whole number that is told apart from its successor in an f64.
pub const TOP: u64 = 9_007_199_254_740_991;

/// A refusal by 01's table: its number, and an offset or (7) a place.
#[derive(Debug, Clone, Copy, PartialEq)]
pub struct Refusal {
    pub number: u8,
    pub at: usize,
}

pub fn refuse<T>(number: u8, at: usize) -> Result<T, Refusal> {
    Err(Refusal { number, at })
}

/// Bytes and how far they have been read. Every read answers `None` where the bytes end too early.
pub struct Reader<'a> {
    bytes: &'a [u8],
    pub at: usize,
}

impl<'a> Reader<'a> {
    pub fn new(bytes: &'a [u8]) -> Self {
        Reader { bytes, at: 0 }
    }

    pub fn done(&self) -> bool {
        self.at == self.bytes.len()
    }

    pub fn take(&mut self, count: usize) -> Option<&'a [u8]> {
        let part = self.bytes[self.at..].get(..count)?;
        self.at += count;
        Some(part)
    }

    fn number(&mut self, width: usize) -> Option<u64> {
        let bytes = self.take(width)?;
        Some(bytes.iter().rev().fold(0, |n, &b| n << 8 | u64::from(b)))
    }

    pub fn u8(&mut self) -> Option<u8> {
        self.number(1).map(|n| n as u8)
    }

    pub fn u16(&mut self) -> Option<u16> {
        self.number(2).map(|n| n as u16)
    }

    pub fn u32(&mut self) -> Option<u32> {
        self.number(4).map(|n| n as u32)
    }

    pub fn u64(&mut self) -> Option<u64> {
        self.number(8)
    }
}
