//! The proof sheet of short numerals (document 02, S-8), by pages.

/// The rows of the whole sheet; its positions are 0 to one less.
pub const SHEET_ROWS: u64 = 50_577;

/// Bytes of output that hold any row.
pub const ROW: usize = 30;

unsafe extern "C" {
    fn rilvostam_proof_sheet(position: u64, out: *mut u8, out_len: usize, at: *mut u64, next: *mut u64) -> u32;
}

/// The page from a row on, at the front of `out`: as many whole rows as fit, each a numeral, a tab, its value and a newline; and the position after them. Past the last row,
/// or where the first does not fit, it has no rows, and the position is the one asked for.
pub fn proof_sheet(position: u64, out: &mut [u8]) -> (&str, u64) {
    let (mut at, mut next) = (0, 0);
    // SAFETY: the pointer is that of a slice with its length, it is not null, and the mutable ones overlap nothing. Nothing is refused.
    unsafe { rilvostam_proof_sheet(position, out.as_mut_ptr(), out.len(), &mut at, &mut next) };
    (std::str::from_utf8(&out[..at as usize]).expect("rows are UTF-8"), next)
}
