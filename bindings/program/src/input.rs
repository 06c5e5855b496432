//! Where the table and the lines come from.

use crate::{Fault, Options};
use std::fs::File;
use std::io::{self, BufRead, BufReader};
use std::os::unix::ffi::OsStrExt;

/// The table's bytes: those of a file, of the text in a file, or the plain table. Bytes that the library takes for a table are one; others are text, if they are UTF-8.
pub fn table(options: &Options) -> Result<Vec<u8>, Fault> {
    let Some(file) = &options.table else { return Ok(rilvostam::plain_table().to_vec()) };
    let name = file.display();
    let bytes = std::fs::read(file).map_err(|e| Fault::unusable(format!("the table {name} can't be read: {e}")))?;
    let Err(refusal) = rilvostam::check_table(&bytes) else { return Ok(bytes) };
    if std::str::from_utf8(&bytes).is_err() || bytes.contains(&0) {
        return Err(Fault::refused(format!("the table {name}: {refusal}")));
    }
    table::encode(&bytes).map_err(|sentence| Fault::refused(format!("the table {name}: {sentence}")))
}

/// The line of the arguments, or one of standard input, up to a newline or the end.
pub fn line(options: &Options) -> Result<Vec<u8>, Fault> {
    if let Some(line) = &options.from {
        return Ok(line.as_bytes().to_vec());
    }
    let mut line = Vec::new();
    io::stdin().lock().read_until(b'\n', &mut line).map_err(|e| Fault::unusable(format!("standard input can't be read: {e}")))?;
    line.truncate(without_newline(&line).len());
    Ok(line)
}

/// A line without the newline at its end, nor the carriage return before that.
fn without_newline(line: &[u8]) -> &[u8] {
    match line.strip_suffix(b"\n") {
        Some(line) => line.strip_suffix(b"\r").unwrap_or(line),
        None => line,
    }
}

/// The lines of a file or of standard input, one after the other.
pub struct Lines {
    name: String,
    from: Box<dyn BufRead>,
    line: Vec<u8>,
    bytes: Option<u64>,
    read: u64,
}

impl Lines {
    pub fn open(options: &Options) -> Result<Lines, Fault> {
        let lines = |name, from, bytes| Lines { name, from, line: Vec::new(), bytes, read: 0 };
        let Some(file) = options.from.as_ref().filter(|file| *file != "-") else {
            return Ok(lines("standard input".into(), Box::new(io::stdin().lock()), None));
        };
        let name = file.display().to_string();
        let opened = File::open(file).map_err(|e| Fault::unusable(format!("{name} can't be read: {e}")))?;
        let bytes = opened.metadata().ok().filter(|m| m.is_file()).map(|m| m.len());
        Ok(lines(name, Box::new(BufReader::new(opened)), bytes))
    }

    /// The bytes of the file, where that is known.
    pub fn bytes(&self) -> Option<u64> {
        self.bytes
    }

    /// The bytes that were read.
    pub fn read(&self) -> u64 {
        self.read
    }

    /// The next line.
    pub fn next(&mut self) -> Result<Option<&[u8]>, Fault> {
        self.line.clear();
        let n = self.from.read_until(b'\n', &mut self.line).map_err(|e| Fault::unusable(format!("{} can't be read: {e}", self.name)))?;
        self.read += n as u64;
        Ok((n > 0).then(|| without_newline(&self.line)))
    }
}
