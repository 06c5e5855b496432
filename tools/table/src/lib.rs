//! Tables of characters as text: into the bytes that the library reads, and back. README.md has the form. What is refused is told in words.

mod read;
mod regular;
mod table;
mod text;

fn parse(input: &[u8]) -> Result<table::Table, String> {
    text::read(std::str::from_utf8(input).map_err(|e| format!("the text is not UTF-8: offset {}", e.valid_up_to()))?)
}

fn legal(input: &[u8]) -> Result<table::Table, String> {
    let table = parse(input)?;
    let refusal = table.bytes()?.refusal();
    refusal.map_or(Ok(table), Err)
}

/// The bytes of a table's text, or a refusal in words with the line of the text where it stands.
pub fn encode(input: &[u8]) -> Result<Vec<u8>, String> {
    Ok(legal(input)?.bytes()?.bytes)
}

/// Whether the table of a text is regular, and if not which record is of none of the four kinds, and which field of it.
pub fn regular(input: &[u8]) -> Result<Vec<u8>, String> {
    let table = legal(input)?;
    match table.irregular() {
        None => Ok("regular: each record is a digit, a unit, a large power or has no value\n".into()),
        Some((record, why)) => {
            let character = char::from_u32(record.code_point).unwrap_or('?');
            Err(format!("line {}: the record of {character} is of none of the four kinds. Its {why}", record.line))
        }
    }
}

/// The text of a table's bytes, or the library's refusal of them.
pub fn decode(input: &[u8]) -> Result<Vec<u8>, String> {
    rilvostam::check_table(input).map_err(|refusal| refusal.to_string())?;
    Ok(text::write(&read::table(input)).into_bytes())
}

/// The line of the text that stands at an offset of its bytes, as the library's refusals 4 and 5 name it.
pub fn explain(input: &[u8], offset: &str) -> Result<Vec<u8>, String> {
    let offset: usize = offset.parse().map_err(|_| format!("{offset} is no offset"))?;
    let table = parse(input)?;
    let table = table.bytes()?;
    if offset > table.bytes.len() {
        return Err(format!("the table has only {} bytes", table.bytes.len()));
    }
    match table.item_at(offset).line() {
        Some(line) => {
            let text = String::from_utf8_lossy(input);
            Ok(format!("line {line}: {}\n", text.lines().nth(line - 1).unwrap_or("")).into_bytes())
        }
        None => Ok("a count, which no line of the text says\n".into()),
    }
}
