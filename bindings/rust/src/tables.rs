//! The tables that the library has, the check of a table, and whether a table is regular.

use crate::{Refusal, answer, found};

/// Bytes of each of the library's tables.
pub const TABLE: usize = 582;

mod c {
    unsafe extern "C" {
        pub fn rilvostam_plain_table(out: *mut u8, out_len: usize, at: *mut u64) -> u32;
        pub fn rilvostam_formal_table(out: *mut u8, out_len: usize, at: *mut u64) -> u32;
        pub fn rilvostam_check_table(table: *const u8, table_len: usize, at: *mut u64) -> u32;
        pub fn rilvostam_regular_table(table: *const u8, table_len: usize, at: *mut u64) -> u32;
    }
}

/// The plain table, 零 to 九, 十百千, 万億兆, at the start of `out`: its length. Refused where `out` is shorter than [`TABLE`], and `out` is then as it was.
pub fn plain_table_into(out: &mut [u8]) -> Result<usize, Refusal> {
    let mut at = 0;
    // SAFETY: the pointer is that of a slice with its length, and `at` is a local.
    answer(unsafe { c::rilvostam_plain_table(out.as_mut_ptr(), out.len(), &mut at) }, at)
}

/// The formal table, which deeds use, 零, 壹貳參肆伍陸柒捌玖, 拾佰仟, 萬億兆, likewise.
pub fn formal_table_into(out: &mut [u8]) -> Result<usize, Refusal> {
    let mut at = 0;
    // SAFETY: as above.
    answer(unsafe { c::rilvostam_formal_table(out.as_mut_ptr(), out.len(), &mut at) }, at)
}

/// The plain table's bytes.
pub fn plain_table() -> [u8; TABLE] {
    let mut out = [0; TABLE];
    plain_table_into(&mut out).expect("the table has this length");
    out
}

/// The formal table's bytes.
pub fn formal_table() -> [u8; TABLE] {
    let mut out = [0; TABLE];
    formal_table_into(&mut out).expect("the table has this length");
    out
}

/// The count of a table's records, or refusal 4 or 5 as [`add_numbers`](crate::add_numbers) would give it.
///
/// ```
/// use rilvostam::{check_table, plain_table};
/// assert_eq!(check_table(&plain_table()), Ok(16));
/// let refusal = check_table(b"\0\0").unwrap_err();
/// assert_eq!((refusal.number(), refusal.at), (4, 2));
/// ```
pub fn check_table(table: &[u8]) -> Result<usize, Refusal> {
    let mut at = 0;
    // SAFETY: as above.
    answer(unsafe { c::rilvostam_check_table(table.as_ptr(), table.len(), &mut at) }, at)
}

/// The offset of the first record of a table that is of none of the four kinds: `None` where the table is regular, so that its lines are read by its own grammar of numerals.
/// Refused where the bytes are no table.
pub fn irregular_record(table: &[u8]) -> Result<Option<usize>, Refusal> {
    let mut at = 0;
    // SAFETY: the pointer is that of a slice with its length, and `at` is a local.
    found(unsafe { c::rilvostam_regular_table(table.as_ptr(), table.len(), &mut at) }, at)
}
