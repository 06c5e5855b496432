//! The text form of a table: one item a line. README.md describes it.

use crate::table::{Mark, Record, Table};

const LISTS: [&str; 4] = ["percentage", "connector", "plus", "minus"];

/// The words of a line. A word ends at a space; quotes keep spaces, and \ takes the next character as it is. A # at a word's start begins a comment.
fn words(line: &str) -> Result<Vec<String>, String> {
    let mut words = Vec::new();
    let mut characters = line.chars().peekable();
    loop {
        while characters.next_if(|c| c.is_whitespace()).is_some() {}
        match characters.peek() {
            None | Some('#') => return Ok(words),
            Some(_) => words.push(word(&mut characters)?),
        }
    }
}

fn word(characters: &mut std::iter::Peekable<std::str::Chars>) -> Result<String, String> {
    let (mut word, mut quoted) = (String::new(), false);
    while let Some(c) = characters.next_if(|c| quoted || !c.is_whitespace()) {
        match c {
            '"' => quoted = !quoted,
            '\\' => word.push(characters.next().ok_or("a \\ at the end of the line")?),
            c => word.push(c),
        }
    }
    if quoted { Err("a quote that is not closed".into()) } else { Ok(word) }
}

/// The table that the lines say, its records in the order of their code points.
pub fn read(text: &str) -> Result<Table, String> {
    let mut table = Table::default();
    for (index, line) in text.lines().enumerate() {
        let number = index + 1;
        words(line).and_then(|words| item(&mut table, &words, number)).map_err(|why| format!("line {number}: {why}"))?;
    }
    table.records.sort_by_key(|record| record.code_point); // of the same character the first line stays first
    Ok(table)
}

fn item(table: &mut Table, words: &[String], line: usize) -> Result<(), String> {
    let Some((first, rest)) = words.split_first() else { return Ok(()) };
    if let Some(list) = LISTS.iter().position(|name| name == first) {
        let [text] = rest else { return Err(format!("{first} takes one string")) };
        table.lists[list].push(Mark { text: text.clone(), line });
        return Ok(());
    }
    if first != "record" {
        return Err(format!("{first} is none of percentage, connector, plus, minus, record"));
    }
    let Some((character, fields)) = rest.split_first() else { return Err("a record begins with its character".into()) };
    let mut record = Record { code_point: code_point(character)?, line, ..Record::default() };
    let mut typed = false;
    for word in fields {
        if word.starts_with("type=") && std::mem::replace(&mut typed, true) {
            return Err("type stands twice".into());
        }
        field(&mut record, word)?;
    }
    if !typed {
        return Err("a record has a type, if only type=\"\"".into());
    }
    table.records.push(record);
    Ok(())
}

/// One character, or U+ and hexadecimal digits.
fn code_point(word: &str) -> Result<u32, String> {
    let mut characters = word.chars();
    if let (Some(c), None) = (characters.next(), characters.next()) {
        return Ok(c.into());
    }
    let digits = word.strip_prefix("U+").ok_or(format!("{word} is neither one character nor U+ and digits"))?;
    u32::from_str_radix(digits, 16).map_err(|_| format!("{word} is no code point"))
}

fn number(text: &str) -> Result<u64, String> {
    text.parse().map_err(|_| format!("{text} is no number of 64 bits"))
}

fn field(record: &mut Record, word: &str) -> Result<(), String> {
    let (name, text) = word.split_once('=').unwrap_or((word, ""));
    let twice = match name {
        "type" => {
            record.kind = text.into();
            false
        }
        "rom" => record.rom.replace(text.into()).is_some(),
        "value" => record.value.replace(number(text)?).is_some(),
        "fraction" => {
            let (numerator, denominator) = text.split_once('/').ok_or("a fraction is numerator/denominator")?;
            record.fraction.replace((number(numerator)?, number(denominator)?)).is_some()
        }
        "base" => record.base.replace(number(text)?).is_some(),
        "mult" => record.mult.replace(number(text)?).is_some(),
        "script" => record.script.replace(text.into()).is_some(),
        "large" if word == "large" => std::mem::replace(&mut record.large_power, true),
        _ => return Err(format!("{name} is none of type, rom, value, fraction, base, mult, script, large")),
    };
    if twice { Err(format!("{name} stands twice")) } else { Ok(()) }
}

/// A string as a word: quoted where it must be.
fn quoted(text: &str) -> String {
    let special = |c: char| c.is_whitespace() || c == '"' || c == '\\';
    if !text.is_empty() && !text.starts_with('#') && !text.contains(special) {
        return text.into();
    }
    format!("\"{}\"", text.replace('\\', "\\\\").replace('"', "\\\""))
}

/// The character itself where a reader sees it and the form can hold it.
pub fn character(code_point: u32) -> String {
    match char::from_u32(code_point) {
        Some(c) if !c.is_control() && !c.is_whitespace() && !matches!(c, '#' | '"' | '\\') => c.into(),
        _ => format!("U+{code_point:04X}"),
    }
}

pub fn write(table: &Table) -> String {
    let mut out = String::new();
    for (name, list) in LISTS.iter().zip(&table.lists) {
        for mark in list {
            out += &format!("{name} {}\n", quoted(&mark.text));
        }
    }
    for r in &table.records {
        out += &format!("record {} type={}", character(r.code_point), quoted(&r.kind));
        let text = |name: &str, t: &Option<String>| t.as_ref().map_or(String::new(), |t| format!(" {name}={}", quoted(t)));
        let number = |name: &str, n: Option<u64>| n.map_or(String::new(), |n| format!(" {name}={n}"));
        out += &text("rom", &r.rom);
        out += &number("value", r.value);
        out += &r.fraction.map_or(String::new(), |(n, d)| format!(" fraction={n}/{d}"));
        out += &number("base", r.base);
        out += &number("mult", r.mult);
        out += &text("script", &r.script);
        out += if r.large_power { " large\n" } else { "\n" };
    }
    out
}

#[cfg(test)]
mod tests {
    use super::*;
    use crate::read;

    const PLAIN: &str = include_str!("../../../data/plain.table");
    const FORMAL: &str = include_str!("../../../data/formal.table");

    fn bytes(text: &str) -> Vec<u8> {
        self::read(text).unwrap().bytes().unwrap().bytes
    }

    #[test]
    fn tables_there_and_back() {
        for text in [PLAIN, FORMAL] {
            let first = bytes(text);
            let back = write(&read::table(&first));
            assert_eq!(bytes(&back), first);
            assert_eq!(self::read(text).unwrap().bytes().unwrap().refusal(), None);
        }
    }

    #[test]
    fn order_of_lines_is_free() {
        let mut lines: Vec<&str> = PLAIN.lines().collect();
        lines.reverse();
        assert_eq!(bytes(&lines.join("\n")), bytes(PLAIN));
    }

    /// The byte string of `plain_table` or `formal_table`, whose contract says that it is the table of the proof.
    fn proved_bytes(source: &str) -> Vec<u8> {
        let literal = source.split("*b\"").nth(1).unwrap().split('"').next().unwrap();
        let mut parts = literal.split('\\');
        let mut out = parts.next().unwrap().as_bytes().to_vec();
        for part in parts {
            match part.strip_prefix('x') {
                Some(hex) => {
                    out.push(u8::from_str_radix(&hex[..2], 16).unwrap());
                    out.extend(hex[2..].bytes());
                }
                None => out.extend(part.strip_prefix('\n').unwrap().bytes()),
            }
        }
        out
    }

    #[test]
    fn tables_are_those_of_the_proof() {
        assert_eq!(bytes(PLAIN), proved_bytes(include_str!("../../../crates/grammar/src/plain_table.rt")));
        assert_eq!(bytes(FORMAL), proved_bytes(include_str!("../../../crates/grammar/src/formal_table.rt")));
    }

    #[test]
    fn strings_of_every_kind() {
        let text = "percentage \"# %\"\nminus \"\\\\ \\\"\"\nrecord U+0023 type=\"\" rom=\"\" fraction=1/2 mult=0 large\n";
        let table = self::read(text).unwrap();
        assert_eq!(table.lists[0][0].text, "# %");
        assert_eq!(table.lists[3][0].text, "\\ \"");
        assert_eq!(write(&table), text);
    }

    #[test]
    fn refusals_name_the_line() {
        let refusal = |text: &str| self::read(text).unwrap().bytes().unwrap().refusal();
        let refused = |text: &str, words: &str| assert_eq!(refusal(text).as_deref(), Some(words));
        refused("# one\nplus \"\"\n", "line 2: an empty marker, connector or sign (refusal 5)");
        refused(&format!("minus {}\n", "x".repeat(61)), "line 1: a string of 61 bytes; 60 are allowed (refusal 4)");
        refused("record 5 type=digit value=5 rom=6\n", "line 1: a digit 0 to 9 whose rom is not that ASCII digit (refusal 5)");
        refused("record 5 type=x base=0\n", "line 1: a base or denominator of 0 (refusal 5)");
        refused("record 5 type=x value=9007199254740992\n", "line 1: a value above 9007199254740991 (refusal 5)");
        refused("record U+D800 type=x\n", "line 1: U+D800 is no scalar value (refusal 5)");
        refused(&format!("record a type={}\n", "x".repeat(61)), "line 1: a type of 61 bytes; 60 are allowed (refusal 4)");
        refused("record b type=x\nrecord a type=x\n\nrecord b type=y\n", "line 4: b has a record in line 1 already (refusal 5)");
        assert_eq!(refusal("record b type=x\nrecord a type=x\n"), None);
        assert_eq!(refusal("record 5 type=digit value=10 rom=6\n"), None);
    }

    #[test]
    fn what_is_no_table_text() {
        let error = |text: &str| self::read(text).unwrap_err();
        assert_eq!(error("record a\n"), "line 1: a record has a type, if only type=\"\"");
        assert_eq!(error("record a type=\"\" type=x\n"), "line 1: type stands twice");
        assert_eq!(error("record a type=x rom=y rom=z\n"), "line 1: rom stands twice");
        assert_eq!(error("\nnumber 5\n"), "line 2: number is none of percentage, connector, plus, minus, record");
        let room = |text: &str| self::read(text).unwrap().bytes().err().unwrap();
        assert_eq!(room(&format!("plus {}\n", "x".repeat(256))), "line 1: a string of 256 bytes; 60 are allowed");
        assert_eq!(room(&"plus +\n".repeat(256)), "line 256: over 255 strings in a list: their count has 8 bits");
    }
}
