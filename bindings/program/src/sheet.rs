//! The proof sheet (02, S-8): every numeral of one to four characters with its value, a row each.

use crate::Fault;
use std::io::Write;

pub fn print(out: &mut dyn Write) -> Result<(), Fault> {
    let (mut page, mut position) = (vec![0; rilvostam::OUT], 0);
    loop {
        let (rows, next) = rilvostam::proof_sheet(position, &mut page);
        if rows.is_empty() {
            return Ok(());
        }
        out.write_all(rows.as_bytes())?;
        position = next;
    }
}
