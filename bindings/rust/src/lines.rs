//! Many lines with one table: a register at a time. The table is checked once for each page of answers, not for each line.

use crate::{Refusal, WORK, answer};

/// Bytes of output that hold any entry of a page.
pub const ENTRY: usize = 32_780;

/// Bytes of the pages that [`add_numbers_to_lines`] asks for.
const PAGE: usize = 1 << 20;

mod c {
    unsafe extern "C" {
        #[rustfmt::skip]
        pub fn rilvostam_add_numbers_to_lines(
            lines: *const u8, lines_len: usize, table: *const u8, table_len: usize,
            work: *mut u8, work_len: usize, out: *mut u8, out_len: usize, at: *mut u64, next: *mut u64,
        ) -> u32;
    }
}

/// A page of entries: see [`add_numbers_to_lines_into`].
#[derive(Clone, Copy, Debug, PartialEq, Eq)]
pub struct Page {
    /// The length of the page in the output.
    pub len: usize,
    /// The offset behind the last line answered, its newline included: 0 where none was, the length of the lines where all were.
    pub next: usize,
}

/// The answers for the lines of a register, in their order: for each line its listing, or its refusal. A line ends before a newline or at the end of the bytes; what follows the
/// last newline is a line only where it is not empty. The table's refusal is that of the whole. Allocates; [`add_numbers_to_lines_into`] does not.
///
/// ```
/// # use rilvostam::*;
/// let register = "墓三号\n一万五\n無\n".as_bytes();
/// let table = plain_table();
/// let mut numbers = Vec::new();
/// for answer in add_numbers_to_lines(register, &table)? {
///     let listing = answer?;
///     numbers.push(edges(&listing).filter_map(|e| e.num?.value).fold(0.0, f64::max));
/// }
/// assert_eq!(numbers, [3.0, 15000.0, 0.0]);
/// # Ok::<(), Refusal>(())
/// ```
pub fn add_numbers_to_lines<'a>(lines: &'a [u8], table: &'a [u8]) -> Result<LineAnswers<'a>, Refusal> {
    let mut answers = LineAnswers { lines, table, work: vec![0; WORK], page: vec![0; PAGE], len: 0, at: 0 };
    answers.turn_page()?;
    Ok(answers)
}

/// The answers for lines; see [`add_numbers_to_lines`].
#[derive(Clone, Debug)]
pub struct LineAnswers<'a> {
    /// The lines behind this page.
    lines: &'a [u8],
    table: &'a [u8],
    work: Vec<u8>,
    page: Vec<u8>,
    len: usize,
    /// Where the next entry of the page stands.
    at: usize,
}

impl LineAnswers<'_> {
    fn turn_page(&mut self) -> Result<(), Refusal> {
        let page = add_numbers_to_lines_into(self.lines, self.table, &mut self.work, &mut self.page)?;
        assert!(page.next > 0 || self.lines.is_empty(), "a page has room for an entry");
        self.lines = &self.lines[page.next..];
        (self.len, self.at) = (page.len, 0);
        Ok(())
    }
}

impl Iterator for LineAnswers<'_> {
    type Item = Result<Vec<u8>, Refusal>;

    fn next(&mut self) -> Option<Self::Item> {
        if self.at == self.len && !self.lines.is_empty() {
            self.turn_page().expect("the table was accepted with the first page");
        }
        let mut entries = Entries { page: &self.page[..self.len], at: self.at };
        let answer = entries.next()?.map(<[u8]>::to_vec);
        self.at = entries.at;
        Some(answer)
    }
}

/// A page of entries into lent buffers: as many whole entries as `out` has room for, none if the first does not fit; [`ENTRY`] bytes hold any. [`entries`] reads them. Call again
/// with the lines from `next` on until it is their length. On a refusal, which is that of the work space or of the table, `out` is as it was.
pub fn add_numbers_to_lines_into(lines: &[u8], table: &[u8], work: &mut [u8], out: &mut [u8]) -> Result<Page, Refusal> {
    let (mut at, mut next) = (0, 0);
    // SAFETY: each pointer is that of a slice with its length, none is null, and the mutable ones overlap nothing.
    let status = unsafe {
        c::rilvostam_add_numbers_to_lines(
            lines.as_ptr(),
            lines.len(),
            table.as_ptr(),
            table.len(),
            work.as_mut_ptr(),
            work.len(),
            out.as_mut_ptr(),
            out.len(),
            &mut at,
            &mut next,
        )
    };
    Ok(Page { len: answer(status, at)?, next: next as usize })
}

/// The entries of a page; see [`entries`].
#[derive(Clone, Debug)]
pub struct Entries<'a> {
    page: &'a [u8],
    at: usize,
}

/// The entries of a page one after the other: for each line its listing, a part of the page, or its refusal. It ends where no whole entry stands.
///
/// ```
/// # use rilvostam::*;
/// let (mut work, mut out) = (vec![0; WORK], vec![0; ENTRY]);
/// let page = add_numbers_to_lines_into(b"x\n\xFF", &plain_table(), &mut work, &mut out)?;
/// let answers: Vec<_> = entries(&out[..page.len]).collect();
/// assert_eq!(answers[0], Ok(NO_EDGES));
/// assert_eq!(answers[1].unwrap_err().name(), "NOT_UTF8");
/// # Ok::<(), Refusal>(())
/// ```
pub fn entries(page: &[u8]) -> Entries<'_> {
    Entries { page, at: 0 }
}

impl<'a> Iterator for Entries<'a> {
    type Item = Result<&'a [u8], Refusal>;

    fn next(&mut self) -> Option<Self::Item> {
        let (status, rest) = self.page.get(self.at..)?.split_first_chunk()?;
        let (number, rest) = rest.split_first_chunk()?;
        let (status, number) = (u32::from_le_bytes(*status), u64::from_le_bytes(*number));
        let behind = self.at + 12;
        if status != 0 {
            self.at = behind;
            return Some(Err(Refusal::new(status, number)));
        }
        let listing = rest.get(..number.try_into().ok()?)?;
        self.at = behind + listing.len();
        Some(Ok(listing))
    }
}
