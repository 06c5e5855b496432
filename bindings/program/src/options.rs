//! The arguments.

use crate::Fault;
use std::ffi::OsString;

/// What the program is asked for.
#[derive(Debug, PartialEq)]
pub enum Task {
    Help,
    Version,
    /// The numeral of a number.
    Number(u64),
    Sheet,
    /// Lines are read.
    Read(Options),
}

/// In which form edges are printed.
#[derive(Clone, Copy, Debug, PartialEq, Default)]
pub enum Form {
    #[default]
    Rows,
    Json,
    Picture,
}

/// How lines are read, and from where.
#[derive(Debug, PartialEq, Default)]
pub struct Options {
    pub lines: bool,
    pub field: bool,
    pub form: Form,
    pub table: Option<OsString>,
    /// The line, or with `lines` the file; standard input where there is none.
    pub from: Option<OsString>,
}

/// What the arguments ask for, or why they ask for nothing.
pub fn parse(mut arguments: impl Iterator<Item = OsString>) -> Result<Task, Fault> {
    let (mut options, mut alone, mut count) = (Options::default(), None, 0);
    while let Some(argument) = arguments.next() {
        count += 1;
        match argument.to_str() {
            Some("--help" | "-h") => alone = Some(Task::Help),
            Some("--version") => alone = Some(Task::Version),
            Some("--sheet") => alone = Some(Task::Sheet),
            Some("--number") => alone = Some(Task::Number(number(arguments.next())?)),
            Some("--lines") => options.lines = true,
            Some("--field") => options.field = true,
            Some("--json") => form(&mut options, Form::Json)?,
            Some("--picture") => form(&mut options, Form::Picture)?,
            Some("--table") => options.table = Some(arguments.next().ok_or(Fault::unusable("--table wants a file"))?),
            Some("--") => {
                for rest in arguments.by_ref() {
                    from(&mut options, rest)?;
                }
            }
            Some(word) if word.starts_with('-') && word != "-" => return Err(Fault::unusable(format!("there is no option {word}; --help has those that there are"))),
            _ => from(&mut options, argument)?,
        }
    }
    match alone {
        Some(task) if count == 1 => Ok(task),
        Some(_) => Err(Fault::unusable("--help, --version, --number N and --sheet stand alone")),
        None => together(options).map(Task::Read),
    }
}

fn number(word: Option<OsString>) -> Result<u64, Fault> {
    let word = word.ok_or(Fault::unusable("--number wants a number"))?;
    let digits = word.to_str().filter(|w| !w.is_empty() && w.bytes().all(|b| b.is_ascii_digit()));
    let digits = digits.ok_or(Fault::unusable(format!("{} is no whole number", word.display())))?;
    Ok(digits.parse().unwrap_or(u64::MAX)) // refused 10, as every number above the largest
}

fn form(options: &mut Options, form: Form) -> Result<(), Fault> {
    if options.form != Form::Rows && options.form != form {
        return Err(Fault::unusable("--json and --picture do not go together"));
    }
    options.form = form;
    Ok(())
}

fn from(options: &mut Options, word: OsString) -> Result<(), Fault> {
    match options.from.replace(word) {
        None => Ok(()),
        Some(_) => Err(Fault::unusable("one LINE, or with --lines one FILE; quotes keep a line with spaces together")),
    }
}

fn together(options: Options) -> Result<Options, Fault> {
    let fault = match &options {
        Options { lines: true, form: Form::Picture, .. } => "--picture shows one line, and --lines has many",
        Options { field: true, form: Form::Picture, .. } => "--field has no edges for a --picture",
        Options { field: true, table: Some(_), .. } => "--field reads with the plain table alone, without --table",
        _ => return Ok(options),
    };
    Err(Fault::unusable(fault))
}

#[cfg(test)]
mod tests {
    use super::*;

    fn asked(words: &str) -> Result<Task, String> {
        parse(words.split_whitespace().map(OsString::from)).map_err(|fault| fault.sentence)
    }

    #[test]
    fn arguments() {
        assert_eq!(asked("--number 5"), Ok(Task::Number(5)));
        assert_eq!(asked("--number 99999999999999999999"), Ok(Task::Number(u64::MAX)));
        let read = Options { lines: true, form: Form::Json, table: Some("t".into()), from: Some("f".into()), ..Options::default() };
        assert_eq!(asked("--lines f --json --table t"), Ok(Task::Read(read)));
        assert_eq!(asked("-- --json"), Ok(Task::Read(Options { from: Some("--json".into()), ..Options::default() })));
    }

    #[test]
    fn faults() {
        for words in ["--number", "--number -5", "--number 1.5", "--table", "--tables", "a b", "--help --json", "--json --picture", "--lines --picture", "--field --table t"] {
            assert!(asked(words).is_err_and(|sentence| !sentence.is_empty()), "{words}");
        }
    }
}
