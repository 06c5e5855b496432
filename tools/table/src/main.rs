//! Tables of characters as text. README.md has the form.
//!
//! table encode < TEXT > BYTES      the table's bytes, or a refusal in words with the line of the text where it stands
//! table decode < BYTES > TEXT      the text of a table's bytes, or the library's refusal of them
//! table explain OFFSET < TEXT      the line of the text that stands at an offset of its bytes, as the library's refusals 4 and 5 name it
//! table regular < TEXT             whether the table is regular, and if not which record is of none of the four kinds, and which field of it

use std::io::{self, Read, Write};
use std::process::ExitCode;

fn main() -> ExitCode {
    let arguments: Vec<String> = std::env::args().skip(1).collect();
    let words: Vec<&str> = arguments.iter().map(String::as_str).collect();
    let mut input = Vec::new();
    if let Err(e) = io::stdin().read_to_end(&mut input) {
        eprintln!("standard input can't be read: {e}");
        return ExitCode::from(2);
    }
    let answer = match words[..] {
        ["encode"] => table::encode(&input),
        ["decode"] => table::decode(&input),
        ["explain", offset] => table::explain(&input, offset),
        ["regular"] => table::regular(&input),
        _ => {
            eprintln!("usage: table encode | decode | explain OFFSET | regular");
            return ExitCode::from(2);
        }
    };
    match answer.and_then(|bytes| io::stdout().write_all(&bytes).map_err(|e| e.to_string())) {
        Ok(()) => ExitCode::SUCCESS,
        Err(message) => {
            eprintln!("{message}");
            ExitCode::FAILURE
        }
    }
}
