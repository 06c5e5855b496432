//! Written numbers in the lines of registers: 一万五 is 15000.
//!
//! Safe functions over `librilvostam.a`, which is proved against its definitions. A line is UTF-8, a table and a listing of edges are bytes in the library's forms
//! (docs/FORMATS.md of the project); a maker writes tables as text with `tools/table`, and reads a listing with [`edges`].
//!
//! ```
//! let listing = rilvostam::add_numbers("一万五", &rilvostam::plain_table(), rilvostam::NO_EDGES)?;
//! let whole = rilvostam::edges(&listing).find(|edge| edge.start == 0 && edge.end == 3).unwrap();
//! assert_eq!((whole.txt, whole.num.unwrap().value), ("15000", Some(15000.0)));
//! # Ok::<(), rilvostam::Refusal>(())
//! ```
#![deny(missing_docs)]

mod edges;
mod lines;
mod refusal;
mod sheet;
mod tables;
mod which;

pub use edges::{Edge, Edges, NumData, edge_at, edges};
pub use lines::{ENTRY, Entries, LineAnswers, Page, add_numbers_to_lines, add_numbers_to_lines_into, entries};
pub use refusal::{Cause, Refusal};
pub use sheet::{ROW, SHEET_ROWS, proof_sheet};
pub use tables::{TABLE, check_table, formal_table, formal_table_into, irregular_record, plain_table, plain_table_into};
pub use which::{Number, Which, which_number};

/// The version of the library that is linked, as one number: 10000 * major + 100 * minor + patch. It is that of this crate where both are of one release.
pub fn version() -> u32 {
    // SAFETY: it takes nothing, and reads nothing.
    unsafe { c::rilvostam_version() }
}

/// Bytes of work space that a call needs.
pub const WORK: usize = 65_536;

/// Bytes of output that always suffice.
pub const OUT: usize = 32_768;

/// Bytes of output that suffice for every numeral.
pub const NUMERAL: usize = 93;

/// Bytes of output that suffice for the weights of every line.
pub const WEIGHTS: usize = 2_048;

/// Bytes of output that suffice for the rows of every worn line.
pub const WORN: usize = 336;

/// The edge list without an edge.
pub const NO_EDGES: &[u8] = &[0, 0];

mod c {
    unsafe extern "C" {
        pub fn rilvostam_version() -> u32;
        #[rustfmt::skip]
        pub fn rilvostam_add_numbers(
            line: *const u8, line_len: usize, table: *const u8, table_len: usize, edges: *const u8, edges_len: usize,
            work: *mut u8, work_len: usize, out: *mut u8, out_len: usize, at: *mut u64,
        ) -> u32;
        #[rustfmt::skip]
        pub fn rilvostam_add_numbers_without_singles(
            line: *const u8, line_len: usize, table: *const u8, table_len: usize, edges: *const u8, edges_len: usize,
            work: *mut u8, work_len: usize, out: *mut u8, out_len: usize, at: *mut u64,
        ) -> u32;
        #[rustfmt::skip]
        pub fn rilvostam_add_numbers_with_decimals(
            line: *const u8, line_len: usize, table: *const u8, table_len: usize, edges: *const u8, edges_len: usize,
            work: *mut u8, work_len: usize, out: *mut u8, out_len: usize, at: *mut u64,
        ) -> u32;
        #[rustfmt::skip]
        pub fn rilvostam_best_edge(
            line: *const u8, line_len: usize, listing: *const u8, listing_len: usize, start: u64, end: u64, skip: u8, at: *mut u64,
        ) -> u32;
        #[rustfmt::skip]
        pub fn rilvostam_right_neighbor(
            line: *const u8, line_len: usize, listing: *const u8, listing_len: usize, place: u64, skip: u8, at: *mut u64,
        ) -> u32;
        #[rustfmt::skip]
        pub fn rilvostam_left_neighbor(
            line: *const u8, line_len: usize, listing: *const u8, listing_len: usize, place: u64, skip: u8, at: *mut u64,
        ) -> u32;
        #[rustfmt::skip]
        pub fn rilvostam_nearest_number(
            line: *const u8, line_len: usize, listing: *const u8, listing_len: usize, place: u64, at: *mut u64,
        ) -> u32;
        #[rustfmt::skip]
        pub fn rilvostam_path(
            line: *const u8, line_len: usize, listing: *const u8, listing_len: usize, start: u64, end: u64, skip: u8,
            out: *mut u8, out_len: usize, at: *mut u64,
        ) -> u32;
        #[rustfmt::skip]
        pub fn rilvostam_shown_text(
            line: *const u8, line_len: usize, listing: *const u8, listing_len: usize, place: u64,
            at: *mut u64, len: *mut u64, in_listing: *mut u8,
        ) -> u32;
        pub fn rilvostam_write_number(number: u64, out: *mut u8, out_len: usize, at: *mut u64) -> u32;
        pub fn rilvostam_read_field(line: *const u8, line_len: usize, is_number: *mut u8, at: *mut u64) -> u32;
        pub fn rilvostam_weights(line: *const u8, line_len: usize, out: *mut u8, out_len: usize, at: *mut u64) -> u32;
        pub fn rilvostam_worn_character(line: *const u8, line_len: usize, out: *mut u8, out_len: usize, at: *mut u64) -> u32;
        #[rustfmt::skip]
        pub fn rilvostam_pool_shares(
            line: *const u8, line_len: usize, listing: *const u8, listing_len: usize,
            numerator: *mut u64, denominator: *mut u64, at: *mut u64,
        ) -> u32;
    }
}

fn answer(status: u32, at: u64) -> Result<usize, Refusal> {
    if status == 0 { Ok(at as usize) } else { Err(Refusal::new(status, at)) }
}

/// The offset of an edge; the greatest number says that there is none.
fn found(status: u32, at: u64) -> Result<Option<usize>, Refusal> {
    answer(status, at).map(|at| (at != usize::MAX).then_some(at))
}

/// The listing of a line's edges, given ones first. Allocates work space and output; [`add_numbers_into`] does not.
///
/// ```
/// # use rilvostam::*;
/// let listing = add_numbers("一万五", &plain_table(), NO_EDGES)?;
/// assert_eq!(edges(&listing).map(|e| e.txt).collect::<Vec<_>>(), ["1", "10000", "5", "10000", "15000", "·10000", "·5"]);
/// # Ok::<(), Refusal>(())
/// ```
pub fn add_numbers(line: &str, table: &[u8], edges: &[u8]) -> Result<Vec<u8>, Refusal> {
    let (mut work, mut out) = (vec![0; WORK], vec![0; OUT]);
    let length = add_numbers_into(line.as_bytes(), table, edges, &mut work, &mut out)?;
    out.truncate(length);
    Ok(out)
}

/// The same into lent buffers, for any bytes as line: the length of the listing in `out`. On a refusal `out` is as it was.
pub fn add_numbers_into(line: &[u8], table: &[u8], edges: &[u8], work: &mut [u8], out: &mut [u8]) -> Result<usize, Refusal> {
    let mut at = 0;
    // SAFETY: each pointer is that of a slice with its length, none is null, and the mutable ones overlap nothing.
    let status = unsafe {
        c::rilvostam_add_numbers(
            line.as_ptr(),
            line.len(),
            table.as_ptr(),
            table.len(),
            edges.as_ptr(),
            edges.len(),
            work.as_mut_ptr(),
            work.len(),
            out.as_mut_ptr(),
            out.len(),
            &mut at,
        )
    };
    answer(status, at)
}

/// The listing in which some singles may not stand: the same bytes, but edges one place long that no pass joined are inactive where they are above 1000 or one of
/// 兩参參伍陆陸什, and so are their copies with a separator. [`add_numbers_without_singles_into`] allocates nothing.
pub fn add_numbers_without_singles(line: &str, table: &[u8], edges: &[u8]) -> Result<Vec<u8>, Refusal> {
    let (mut work, mut out) = (vec![0; WORK], vec![0; OUT]);
    let length = add_numbers_without_singles_into(line.as_bytes(), table, edges, &mut work, &mut out)?;
    out.truncate(length);
    Ok(out)
}

/// The same into lent buffers, as [`add_numbers_into`].
pub fn add_numbers_without_singles_into(
    line: &[u8],
    table: &[u8],
    edges: &[u8],
    work: &mut [u8],
    out: &mut [u8],
) -> Result<usize, Refusal> {
    let mut at = 0;
    // SAFETY: as above.
    let status = unsafe {
        c::rilvostam_add_numbers_without_singles(
            line.as_ptr(),
            line.len(),
            table.as_ptr(),
            table.len(),
            edges.as_ptr(),
            edges.len(),
            work.as_mut_ptr(),
            work.len(),
            out.as_mut_ptr(),
            out.len(),
            &mut at,
        )
    };
    answer(status, at)
}

/// The listing with decimals: digits, a point that has no record in the table and digits, each touching the next, are one edge with a count of decimals, 1 to 15 (一.五).
/// For a line without a point it is the one of [`add_numbers`]. [`add_numbers_with_decimals_into`] allocates nothing.
pub fn add_numbers_with_decimals(line: &str, table: &[u8], edges: &[u8]) -> Result<Vec<u8>, Refusal> {
    let (mut work, mut out) = (vec![0; WORK], vec![0; OUT]);
    let length = add_numbers_with_decimals_into(line.as_bytes(), table, edges, &mut work, &mut out)?;
    out.truncate(length);
    Ok(out)
}

/// The same into lent buffers, as [`add_numbers_into`].
pub fn add_numbers_with_decimals_into(
    line: &[u8],
    table: &[u8],
    edges: &[u8],
    work: &mut [u8],
    out: &mut [u8],
) -> Result<usize, Refusal> {
    let mut at = 0;
    // SAFETY: as above.
    let status = unsafe {
        c::rilvostam_add_numbers_with_decimals(
            line.as_ptr(),
            line.len(),
            table.as_ptr(),
            table.len(),
            edges.as_ptr(),
            edges.len(),
            work.as_mut_ptr(),
            work.len(),
            out.as_mut_ptr(),
            out.len(),
            &mut at,
        )
    };
    answer(status, at)
}

/// The offset in the listing of the best edge from place `start` to place `end`, the first of its class in listing order. `skip`: no numeric edge.
///
/// ```
/// # use rilvostam::*;
/// let line = "x一万五";
/// let listing = add_numbers(line, &plain_table(), NO_EDGES)?;
/// let at = best_edge(line.as_bytes(), &listing, 1, 3, false)?.unwrap();
/// assert_eq!(edge_at(&listing, at)?.0.txt, "10000");
/// # Ok::<(), Refusal>(())
/// ```
pub fn best_edge(line: &[u8], listing: &[u8], start: u64, end: u64, skip: bool) -> Result<Option<usize>, Refusal> {
    let mut at = 0;
    // SAFETY: as above.
    let status = unsafe {
        c::rilvostam_best_edge(line.as_ptr(), line.len(), listing.as_ptr(), listing.len(), start, end, skip.into(), &mut at)
    };
    found(status, at)
}

/// The offset of the best edge of the longest span that starts at a place.
///
/// ```
/// # use rilvostam::*;
/// let line = "x一万五";
/// let listing = add_numbers(line, &plain_table(), NO_EDGES)?;
/// let at = right_neighbor(line.as_bytes(), &listing, 1, false)?.unwrap();
/// assert_eq!(edge_at(&listing, at)?.0.txt, "15000");
/// assert_eq!(right_neighbor(line.as_bytes(), &listing, 0, false)?, None);
/// # Ok::<(), Refusal>(())
/// ```
pub fn right_neighbor(line: &[u8], listing: &[u8], place: u64, skip: bool) -> Result<Option<usize>, Refusal> {
    let mut at = 0;
    // SAFETY: as above.
    let status =
        unsafe { c::rilvostam_right_neighbor(line.as_ptr(), line.len(), listing.as_ptr(), listing.len(), place, skip.into(), &mut at) };
    found(status, at)
}

/// The offset of the best edge of the longest span that ends at a place.
///
/// ```
/// # use rilvostam::*;
/// let line = "x一万五";
/// let listing = add_numbers(line, &plain_table(), NO_EDGES)?;
/// let at = left_neighbor(line.as_bytes(), &listing, 3, false)?.unwrap();
/// assert_eq!(edge_at(&listing, at)?.0.txt, "10000");
/// # Ok::<(), Refusal>(())
/// ```
pub fn left_neighbor(line: &[u8], listing: &[u8], place: u64, skip: bool) -> Result<Option<usize>, Refusal> {
    let mut at = 0;
    // SAFETY: as above.
    let status =
        unsafe { c::rilvostam_left_neighbor(line.as_ptr(), line.len(), listing.as_ptr(), listing.len(), place, skip.into(), &mut at) };
    found(status, at)
}

/// The offset of the number nearest to a place: the active numeric edge with the fewest characters between. An edge that starts at or before the place and ends at or behind it
/// counts 0. At equal distance the earlier start, then the longer edge, then the first in listing order. `None` exactly where the listing has no active numeric edge.
pub fn nearest_number(line: &[u8], listing: &[u8], place: u64) -> Result<Option<usize>, Refusal> {
    let mut at = 0;
    // SAFETY: as above.
    let status = unsafe { c::rilvostam_nearest_number(line.as_ptr(), line.len(), listing.as_ptr(), listing.len(), place, &mut at) };
    found(status, at)
}

/// The path from `start` to `end` as a listing. It is never longer than the listing that is read.
///
/// ```
/// # use rilvostam::*;
/// let line = "x一万五";
/// let listing = add_numbers(line, &plain_table(), NO_EDGES)?;
/// let path = path(line.as_bytes(), &listing, 0, 4, false)?;
/// assert_eq!(edges(&path).map(|e| e.txt).collect::<Vec<_>>(), ["15000"]);
/// # Ok::<(), Refusal>(())
/// ```
pub fn path(line: &[u8], listing: &[u8], start: u64, end: u64, skip: bool) -> Result<Vec<u8>, Refusal> {
    let (mut out, mut at) = (vec![0; listing.len()], 0);
    // SAFETY: as above; `out` is new.
    let status = unsafe {
        c::rilvostam_path(
            line.as_ptr(),
            line.len(),
            listing.as_ptr(),
            listing.len(),
            start,
            end,
            skip.into(),
            out.as_mut_ptr(),
            out.len(),
            &mut at,
        )
    };
    out.truncate(answer(status, at)?);
    Ok(out)
}

/// The text shown at a place: a part of the listing, or the character's own bytes, a part of the line.
///
/// ```
/// # use rilvostam::*;
/// let line = "x一万五";
/// let listing = add_numbers(line, &plain_table(), NO_EDGES)?;
/// assert_eq!(shown_text(line.as_bytes(), &listing, 0)?, b"x");
/// assert_eq!(shown_text(line.as_bytes(), &listing, 1)?, b"15000");
/// # Ok::<(), Refusal>(())
/// ```
pub fn shown_text<'a>(line: &'a [u8], listing: &'a [u8], place: u64) -> Result<&'a [u8], Refusal> {
    let (mut at, mut len, mut in_listing) = (0, 0, 0);
    // SAFETY: as above.
    let status = unsafe {
        c::rilvostam_shown_text(
            line.as_ptr(),
            line.len(),
            listing.as_ptr(),
            listing.len(),
            place,
            &mut at,
            &mut len,
            &mut in_listing,
        )
    };
    let from = answer(status, at)?;
    let lent = if in_listing == 1 { listing } else { line };
    Ok(&lent[from..from + len as usize])
}

/// The numeral of a number up to 9,007,199,254,740,991, at the front of `out`: 10005 is 一万零五. On a refusal `out` is as it was.
///
/// ```
/// let mut out = [0; rilvostam::NUMERAL];
/// assert_eq!(rilvostam::write_number(10005, &mut out), Ok("一万零五"));
/// assert_eq!(rilvostam::write_number(1 << 53, &mut out).unwrap_err().number(), 10);
/// ```
pub fn write_number(number: u64, out: &mut [u8]) -> Result<&str, Refusal> {
    let mut at = 0;
    // SAFETY: as above.
    let status = unsafe { c::rilvostam_write_number(number, out.as_mut_ptr(), out.len(), &mut at) };
    let length = answer(status, at)?;
    Ok(std::str::from_utf8(&out[..length]).expect("a numeral is UTF-8"))
}

/// The shares of a listing together: the sum of its active edges' fractions in lowest terms, numerator and denominator, 0 and 1 where there is none.
///
/// ```
/// # use rilvostam::*;
/// let line = "三分之一x六分之一";
/// let listing = add_numbers(line, &plain_table(), NO_EDGES)?;
/// assert_eq!(pool_shares(line.as_bytes(), &listing), Ok((1, 2)));
/// # Ok::<(), Refusal>(())
/// ```
pub fn pool_shares(line: &[u8], listing: &[u8]) -> Result<(u64, u64), Refusal> {
    let (mut numerator, mut denominator, mut at) = (0, 0, 0);
    // SAFETY: as above.
    let status = unsafe {
        c::rilvostam_pool_shares(
            line.as_ptr(),
            line.len(),
            listing.as_ptr(),
            listing.len(),
            &mut numerator,
            &mut denominator,
            &mut at,
        )
    };
    answer(status, at).map(|_| (numerator, denominator))
}

/// The value of a line that is one numeral of the plain table, up to 9,007,199,254,740,991; `None` for any other line.
///
/// ```
/// assert_eq!(rilvostam::read_field("一万五".as_bytes()), Ok(Some(15000)));
/// assert_eq!(rilvostam::read_field("一百一百".as_bytes()), Ok(None));
/// ```
pub fn read_field(line: &[u8]) -> Result<Option<u64>, Refusal> {
    let (mut is_number, mut at) = (0, 0);
    // SAFETY: as above.
    let status = unsafe { c::rilvostam_read_field(line.as_ptr(), line.len(), &mut is_number, &mut at) };
    answer(status, at)?;
    Ok((is_number == 1).then_some(at))
}

/// How far one wrong digit goes: the weight of each 一 to 九 of a line that is one numeral of the plain table, in line order; none for any other line.
pub fn weights(line: &[u8]) -> Result<Vec<u64>, Refusal> {
    let mut out = [0; WEIGHTS];
    let count = weights_into(line, &mut out)?;
    Ok(out.chunks_exact(8).take(count).map(|bytes| u64::from_le_bytes(bytes.try_into().expect("eight bytes"))).collect())
}

/// The same at the front of `out`, eight bytes each, little-endian; answers their count. On a refusal `out` is as it was.
pub fn weights_into(line: &[u8], out: &mut [u8]) -> Result<usize, Refusal> {
    let mut at = 0;
    // SAFETY: as above.
    let status = unsafe { c::rilvostam_weights(line.as_ptr(), line.len(), out.as_mut_ptr(), out.len(), &mut at) };
    answer(status, at)
}

/// The characters that may have stood where a line has □ (U+25A1), each in a row with the line's value, at the front of `out`: the character, a tab, the value in decimal
/// and a newline. On a refusal `out` is as it was.
pub fn worn_character<'o>(line: &[u8], out: &'o mut [u8]) -> Result<&'o str, Refusal> {
    let mut at = 0;
    // SAFETY: as above.
    let status = unsafe { c::rilvostam_worn_character(line.as_ptr(), line.len(), out.as_mut_ptr(), out.len(), &mut at) };
    let length = answer(status, at)?;
    Ok(std::str::from_utf8(&out[..length]).expect("rows are UTF-8"))
}
