//! The edges of a listing, one after the other from its front. The library reads them: no byte is taken apart here.

use crate::Refusal;

/// Numbers of an edge that `rilvostam_edge_at` answers. Their order is that of `include/rilvostam.h`.
const NUMBERS: usize = 19;

/// The offset of the first edge.
const FIRST: u64 = 2;

mod c {
    unsafe extern "C" {
        pub fn rilvostam_edge_at(listing: *const u8, listing_len: usize, at: u64, numbers: *mut u64, next: *mut u64) -> u32;
    }
}

/// The numeric data of an edge.
#[derive(Clone, Copy, Debug, PartialEq)]
pub struct NumData<'a> {
    /// The characters of the line that the edge spans.
    pub orig_txt: &'a str,
    /// A whole number up to 9,007,199,254,740,991, where the library made it.
    pub value: Option<f64>,
    /// Numerator and denominator.
    pub fraction: Option<(u64, u64)>,
    /// The base: 1 for a digit, 100 for 百.
    pub base: Option<u64>,
    /// The record's mult.
    pub base_multiplier: Option<f64>,
    /// The script, as `CJK`.
    pub script: Option<&'a str>,
    /// Whether it is a large power, as 万.
    pub large_power: bool,
    /// Whether it counts: an inactive edge is part of another, or was written anew.
    pub active: bool,
    /// The digits in a row, leading zeros kept.
    pub value_s: Option<&'a str>,
    /// How many of its digits stand behind a point: 1 to 15.
    pub decimals: Option<u8>,
}

/// An edge of a listing.
#[derive(Clone, Copy, Debug, PartialEq)]
pub struct Edge<'a> {
    /// Where the edge stands in the listing.
    pub offset: usize,
    /// Where it starts: characters of the line before it.
    pub start: usize,
    /// Where it ends, likewise.
    pub end: usize,
    /// Its type.
    pub kind: &'a str,
    /// What it reads as.
    pub txt: &'a str,
    /// `None`: a regular edge.
    pub num: Option<NumData<'a>>,
}

/// The edges of a listing; see [`edges`].
#[derive(Clone, Debug)]
pub struct Edges<'a> {
    listing: &'a [u8],
    at: u64,
}

/// The edges of a listing, as [`add_numbers`](crate::add_numbers) and [`path`](crate::path) write them. It ends where no whole edge stands, and at a text that is not UTF-8.
///
/// ```
/// let listing = rilvostam::add_numbers("百分之五", &rilvostam::plain_table(), rilvostam::NO_EDGES)?;
/// let rows: Vec<_> = rilvostam::edges(&listing).map(|e| (e.start, e.end, e.kind, e.txt)).collect();
/// assert_eq!(rows, [(0, 1, "base", "100"), (3, 4, "digit", "5"), (0, 4, "percentage", "5%")]);
/// # Ok::<(), rilvostam::Refusal>(())
/// ```
pub fn edges(listing: &[u8]) -> Edges<'_> {
    Edges { listing, at: FIRST }
}

/// The edge at an offset that a call answered, and the offset of the next. Refused 6 where no whole edge stands, and where one of its texts is not UTF-8.
///
/// ```
/// let line = "墓三号".as_bytes();
/// let listing = rilvostam::add_numbers("墓三号", &rilvostam::plain_table(), rilvostam::NO_EDGES)?;
/// let at = rilvostam::nearest_number(line, &listing, 0)?.unwrap();
/// let (edge, next) = rilvostam::edge_at(&listing, at)?;
/// assert_eq!((edge.start, edge.end, edge.num.unwrap().value, next), (1, 2, Some(3.0), listing.len()));
/// # Ok::<(), rilvostam::Refusal>(())
/// ```
pub fn edge_at(listing: &[u8], at: usize) -> Result<(Edge<'_>, usize), Refusal> {
    let (mut numbers, mut next) = ([0; NUMBERS], 0);
    // SAFETY: the pointer is that of a slice with its length; `numbers`, of as many as the library writes, and `next` are locals.
    let status = unsafe { c::rilvostam_edge_at(listing.as_ptr(), listing.len(), at as u64, numbers.as_mut_ptr(), &mut next) };
    if status != 0 {
        return Err(Refusal::new(status, next));
    }
    let edge = edge_of(listing, at, numbers).ok_or(Refusal::new(6, at as u64))?;
    Ok((edge, next as usize))
}

/// The edge that the numbers say; `None` where a text is not UTF-8.
fn edge_of(listing: &[u8], offset: usize, numbers: [u64; NUMBERS]) -> Option<Edge<'_>> {
    #[rustfmt::skip]
    let [
        map, start, end, type_at, type_len, txt_at, txt_len, orig_at, orig_len,
        value, numerator, denominator, base, mult, script_at, script_len, value_s_at, value_s_len, decimals,
    ] = numbers;
    let stands = |bit: u32| map >> bit & 1 == 1;
    let text = |at: u64, len: u64| std::str::from_utf8(&listing[at as usize..(at + len) as usize]).ok();
    let text_if = |bit, at, len| if stands(bit) { text(at, len).map(Some) } else { Some(None) };
    let num = NumData {
        orig_txt: text(orig_at, orig_len)?,
        value: stands(1).then_some(f64::from_bits(value)),
        fraction: stands(2).then_some((numerator, denominator)),
        base: stands(3).then_some(base),
        base_multiplier: stands(4).then_some(f64::from_bits(mult)),
        script: text_if(5, script_at, script_len)?,
        large_power: stands(6),
        active: stands(7),
        value_s: text_if(8, value_s_at, value_s_len)?,
        decimals: stands(9).then_some(decimals as u8),
    };
    Some(Edge {
        offset,
        start: start as usize,
        end: end as usize,
        kind: text(type_at, type_len)?,
        txt: text(txt_at, txt_len)?,
        num: stands(0).then_some(num),
    })
}

impl<'a> Iterator for Edges<'a> {
    type Item = Edge<'a>;

    fn next(&mut self) -> Option<Edge<'a>> {
        let (edge, next) = edge_at(self.listing, self.at as usize).ok()?;
        self.at = next as u64;
        Some(edge)
    }
}
