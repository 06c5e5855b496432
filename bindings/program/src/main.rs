//! The program with arguments, over the library: help.txt says what it does. `./rilvostam` of the project's root builds and runs it; without arguments that is document 01's program.

mod input;
mod json;
mod options;
mod picture;
mod progress;
mod rows;
mod sheet;

use options::{Form, Options, Task};
use rilvostam::Refusal;
use std::io::{self, Write};
use std::process::ExitCode;

/// Why the program can't do what it was asked for: the exit status, and a sentence.
pub struct Fault {
    status: u8,
    sentence: String,
}

impl Fault {
    /// Arguments, a file, or standard input or output that can't be used.
    pub fn unusable(sentence: impl Into<String>) -> Fault {
        Fault { status: 2, sentence: sentence.into() }
    }

    /// What is read says what it may not.
    pub fn refused(sentence: impl Into<String>) -> Fault {
        Fault { status: 1, sentence: sentence.into() }
    }
}

impl From<Refusal> for Fault {
    fn from(refusal: Refusal) -> Fault {
        Fault::refused(refusal.to_string())
    }
}

/// A write that failed. Where the reader of a pipe has gone away there is nothing to say.
impl From<io::Error> for Fault {
    fn from(e: io::Error) -> Fault {
        Fault::unusable(if e.kind() == io::ErrorKind::BrokenPipe { String::new() } else { format!("standard output can't be written: {e}") })
    }
}

fn main() -> ExitCode {
    let answer = options::parse(std::env::args_os().skip(1)).and_then(|task| {
        let mut out = io::BufWriter::new(io::stdout().lock());
        let refused = run(task, &mut out)?;
        out.flush()?;
        Ok(refused)
    });
    match answer {
        Ok(refused) => ExitCode::from(refused as u8),
        Err(fault) => {
            if !fault.sentence.is_empty() {
                eprintln!("rilvostam: {}", fault.sentence);
            }
            ExitCode::from(fault.status)
        }
    }
}

/// Does what was asked for: whether a line was refused.
fn run(task: Task, out: &mut dyn Write) -> Result<bool, Fault> {
    match task {
        Task::Help => out.write_all(include_bytes!("../help.txt"))?,
        Task::Version => writeln!(out, "rilvostam {}", env!("CARGO_PKG_VERSION"))?,
        Task::Number(number) => writeln!(out, "{}", rilvostam::write_number(number, &mut [0; rilvostam::NUMERAL])?)?,
        Task::Sheet => sheet::print(out)?,
        Task::Read(options) if options.lines => return lines(&options, out),
        Task::Read(options) => return one(&options, out),
    }
    Ok(false)
}

/// One line.
fn one(options: &Options, out: &mut dyn Write) -> Result<bool, Fault> {
    let table = input::table(options)?;
    let line = input::line(options)?;
    show(options, None, &line, &table, out)
}

/// Every line of a file or of standard input, each behind its number, from 1 on.
fn lines(options: &Options, out: &mut dyn Write) -> Result<bool, Fault> {
    let table = input::table(options)?;
    let mut lines = input::Lines::open(options)?;
    let mut progress = progress::Progress::new(lines.bytes());
    let (mut number, mut refused) = (0, false);
    while let Some(line) = lines.next()? {
        number += 1;
        refused |= show(options, Some(number), line, &table, out)?;
        progress.tell(number, lines.read());
    }
    progress.end();
    Ok(refused)
}

/// What one line gives, in the form that was asked for: whether it was refused, which standard error says in words.
fn show(options: &Options, number: Option<u64>, line: &[u8], table: &[u8], out: &mut dyn Write) -> Result<bool, Fault> {
    match answer(options, number, line, table, out)? {
        Ok(()) => Ok(false),
        Err(refusal) => {
            match options.form {
                Form::Rows => rows::refusal(number, &refusal, out)?,
                Form::Json => json::refusal(number, &refusal, out)?,
                Form::Picture => {}
            }
            match number {
                Some(number) => eprintln!("rilvostam: line {number}: {refusal}"),
                None => eprintln!("rilvostam: {refusal}"),
            }
            Ok(true)
        }
    }
}

fn answer(options: &Options, number: Option<u64>, line: &[u8], table: &[u8], out: &mut dyn Write) -> io::Result<Result<(), Refusal>> {
    if options.field {
        return match rilvostam::read_field(line) {
            Err(refusal) => Ok(Err(refusal)),
            Ok(value) if options.form == Form::Json => json::field(number, value, out).map(Ok),
            Ok(value) => rows::field(number, value, out).map(Ok),
        };
    }
    let (mut work, mut listing) = (vec![0; rilvostam::WORK], vec![0; rilvostam::OUT]);
    match rilvostam::add_numbers_into(line, table, rilvostam::NO_EDGES, &mut work, &mut listing) {
        Err(refusal) => return Ok(Err(refusal)),
        Ok(length) => listing.truncate(length),
    }
    if options.form == Form::Picture {
        let text = std::str::from_utf8(line).expect("the library refuses any other line");
        out.write_all(picture::svg(text, &listing).as_bytes())?;
    }
    for edge in rilvostam::edges(&listing) {
        match options.form {
            Form::Rows => rows::edge(number, &edge, out)?,
            Form::Json => json::edge(number, &edge, out)?,
            Form::Picture => {}
        }
    }
    Ok(Ok(()))
}
