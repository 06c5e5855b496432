//! Cases to compare on, the same for the same seed. Case number K of a family depends on seed and K alone.
//! All are inside 01's domain but those of the family `faults` and some of `registers`.

use std::io::{self, Write};

use crate::bytes::TOP;
use crate::cases::{Case, Decoder};
use crate::category::DECIMAL_NUMBER;
use crate::edge::{Edge, EdgeData, NumData};
use crate::show::digits;
use crate::table::{Record, Table};

const PLAIN: [char; 16] = ['零', '一', '二', '三', '四', '五', '六', '七', '八', '九', '十', '百', '千', '万', '億', '兆'];

/// SplitMix64.
struct Rng(u64);

impl Rng {
    fn next(&mut self) -> u64 {
        self.0 = self.0.wrapping_add(0x9E37_79B9_7F4A_7C15);
        let mut z = self.0;
        z = (z ^ (z >> 30)).wrapping_mul(0xBF58_476D_1CE4_E5B9);
        z = (z ^ (z >> 27)).wrapping_mul(0x94D0_49BB_1331_11EB);
        z ^ (z >> 31)
    }

    /// A number below `n`.
    fn below(&mut self, n: usize) -> usize {
        (self.next() % n as u64) as usize
    }

    /// True once in `n`.
    fn once_in(&mut self, n: usize) -> bool {
        self.below(n) == 0
    }

    fn pick<T: Clone>(&mut self, from: &[T]) -> T {
        from[self.below(from.len())].clone()
    }

    /// Mostly short; once in eight longer, once in sixty-four up to 01's 256.
    fn length(&mut self) -> usize {
        let most = match self.below(64) {
            0 => 256,
            1..=8 => 60,
            _ => 12,
        };
        self.below(most + 1)
    }
}

fn option<'a>(arguments: &[&'a str], name: &str) -> Option<&'a str> {
    arguments.iter().position(|a| *a == name).and_then(|at| arguments.get(at + 1).copied())
}

pub fn number(arguments: &[&str], name: &str, otherwise: u64) -> u64 {
    option(arguments, name).map_or(otherwise, |text| text.parse().unwrap_or_else(|_| panic!("{name} wants a number")))
}

/// `gen --family F --seed S --count N [--from K]`: cases K to K + N - 1. For `short`, all plain lines of up to N characters.
pub fn write(arguments: &[&str], out: &mut impl Write) -> io::Result<()> {
    let (seed, from, count) = (number(arguments, "--seed", 1), number(arguments, "--from", 0), number(arguments, "--count", 1000));
    let option = |name: &str| option(arguments, name);
    match option("--family").unwrap_or("mixed") {
        "short" => short(count as usize, out),
        "limits" => limits().iter().try_for_each(|case| case.write(out)),
        family => (from..from + count).try_for_each(|k| random(family, seed, k).write(out)),
    }
}

/// A line and a listing that no call made: regular and numeric edges of every class in any order, some of them twice.
pub fn foreign(seed: u64, k: u64) -> (String, Vec<Edge>) {
    let rng = &mut Rng(Rng(seed).next() ^ Rng(!k).next());
    let length = rng.length();
    let line: String = (0..length).map(|_| rng.pick(&['x', 'é', '零', '五', '𠀀'])).collect();
    let count = if length == 0 { 0 } else { rng.below(40) };
    let mut edges: Vec<Edge> = Vec::new();
    for _ in 0..count {
        let edge = match rng.below(5) {
            0 if !edges.is_empty() => rng.pick(&edges),
            1 | 2 => any_edge(rng, length),
            _ => any_numeric(rng, length),
        };
        // Edges of one key are one in the old program's sets, so only a whole copy may stand twice.
        if !edges.iter().any(|e| *e == edge && format!("{e:?}") != format!("{edge:?}")) {
            edges.push(edge);
        }
    }
    (line, edges)
}

fn any_numeric(rng: &mut Rng, length: usize) -> Edge {
    let regular = any_edge(rng, length);
    let num_data = NumData { orig_txt: any_text(rng), value: rng.once_in(2).then_some(5.0), active: rng.once_in(2), ..NumData::default() };
    let data = EdgeData { start: regular.start(), end: regular.end(), txt: regular.txt().into(), r#type: regular.r#type().into() };
    Edge::Numeric { data, num_data }
}

fn random(family: &str, seed: u64, k: u64) -> Case {
    let rng = &mut Rng(Rng(seed).next() ^ Rng(!k).next());
    match family {
        "plain" => Case::new(&plain_line(rng), &Table::plain(), &[]),
        "numerals" => Case::new(&numeral(rng), &Table::plain(), &[]),
        "marks" => Case::new(&marked_line(rng), &Table::plain(), &[]),
        "tables" => {
            let table = table(rng);
            Case::new(&line_over(rng, &table), &table, &[])
        }
        "given" => given_case(rng),
        "big" => {
            let table = big_table(rng);
            Case::new(&line_over(rng, &table), &table, &[])
        }
        "faults" => faulty(rng, random("mixed", seed, k)),
        "registers" => register_line(rng, seed, k),
        "mixed" => random(["plain", "numerals", "marks", "tables", "given"][(k % 5) as usize], seed, k),
        other => panic!("no family {other}: short limits plain numerals marks tables given mixed big faults registers"),
    }
}

/// Every plain line of up to `most` characters, the shortest first.
fn short(most: usize, out: &mut impl Write) -> io::Result<()> {
    let table = Table::plain();
    for length in 0..=most {
        for number in 0..16_usize.pow(length as u32) {
            let line: String = (0..length).rev().map(|at| PLAIN[number >> (4 * at) & 15]).collect();
            Case::new(&line, &table, &[]).write(out)?;
        }
    }
    Ok(())
}

/// Lines at 01's limits: TOP in every pass, 256 characters, a listing that grows too long.
fn limits() -> Vec<Case> {
    let nines = |count| "九".repeat(count);
    let mut lines: Vec<String> = [TOP - 1, TOP, TOP + 1, TOP + 2, 999_999_999_999_999].map(digits).into();
    for line in lines.clone() {
        lines.push("零".repeat(200) + &line);
        lines.push(format!("五{line}"));
        lines.extend(["十", "千", "万", "兆"].map(|base| format!("x{line}{base}五")));
    }
    // G1 and G3 at TOP and behind it, D1 behind G1's place, G4's sum.
    lines.extend([9_007_199_254_740, 9_007_199_254_741, 9007, 9008, 900_719_925_474, 900_719_925_475].map(|n| digits(n) + "千"));
    lines.extend([9007, 9008].map(|n| digits(n) + "兆"));
    lines.extend(
        ["九千零七兆一千九百九十二億五千四百七十四万零九百九十一", "九千零七兆一千九百九十二億五千四百七十四万零九百九十二"]
            .map(String::from),
    );
    lines.push(nines(15) + "千x" + &nines(17));
    lines.extend([nines(17), nines(256), "零".repeat(256), "零".repeat(257), "一百".repeat(128), "億一零百一兆一十".repeat(21)]);
    lines.extend([22, 25, 32].map(|n| "億一零百一兆一十".repeat(n)));
    lines.iter().map(|line| Case::new(line, &Table::plain(), &[])).collect()
}

fn plain_line(rng: &mut Rng) -> String {
    (0..rng.length()).map(|_| rng.pick(&PLAIN)).collect()
}

/// A written number with some parts left out, at times with one character changed.
fn numeral(rng: &mut Rng) -> String {
    let mut line = Vec::new();
    for block in ["兆", "億", "万", ""] {
        if rng.once_in(3) {
            continue;
        }
        for base in ["千", "百", "十", ""] {
            match rng.below(4) {
                0 => {}
                1 => line.push('零'),
                2 if !base.is_empty() => line.extend(base.chars()),
                _ => {
                    line.push(PLAIN[1 + rng.below(9)]);
                    line.extend(base.chars());
                }
            }
        }
        line.extend(block.chars());
    }
    if !line.is_empty() && rng.once_in(2) {
        let at = rng.below(line.len());
        line[at] = rng.pick(&PLAIN);
    }
    line.into_iter().collect()
}

/// Plain characters with markers, signs, digits of other scripts and characters without a record between them.
fn marked_line(rng: &mut Rng) -> String {
    let others = ["百分之", "分之", "分之", "+", "-", "x", ".", "5", "7", "٣", "𑽕", "🂡", "百", "五", "百分", "之"];
    pieces(rng, |rng| if rng.once_in(2) { rng.pick(&PLAIN).to_string() } else { rng.pick(&others).into() })
}

/// Pieces in a row, cut at 256 characters.
fn pieces(rng: &mut Rng, mut piece: impl FnMut(&mut Rng) -> String) -> String {
    let line: String = (0..rng.length()).map(|_| piece(rng)).collect();
    line.chars().take(256).collect()
}

/// A digit of any script, those of Unicode 15.0 among them.
fn any_digit(rng: &mut Rng) -> char {
    let (first, _) = rng.pick(DECIMAL_NUMBER);
    char::from_u32(first as u32 + rng.below(10) as u32).expect("68 runs of ten")
}

fn any_character(rng: &mut Rng) -> char {
    match rng.below(12) {
        0..=4 => rng.pick(&PLAIN),
        5 => any_digit(rng),
        6 | 7 => rng.pick(&['0', '1', '5', '9']),
        8 => rng.pick(&['〇', '零', '〇', '兩', '参', '京', '伍', '什']),
        9 => rng.pick(&['½', '¼', '↉', '%', '/', '-', '+', '.', '·']),
        _ => rng.pick(&['x', 'é', '分', '之', ' ', '🂡', '\u{10FFFF}', '\0', '\n']),
    }
}

fn any_number(rng: &mut Rng) -> u64 {
    match rng.below(10) {
        0..=3 => rng.below(10) as u64,
        4 => 10 + rng.below(90) as u64,
        5 | 6 => 10_u64.pow(rng.below(16) as u32),
        7 => rng.pick(&[2, 12, 20, 60, 99, 100, 101, 5000, 1 << 32]),
        8 => rng.next() % (TOP + 1),
        _ => TOP - rng.below(2) as u64,
    }
}

fn any_base(rng: &mut Rng) -> u64 {
    match rng.below(8) {
        0..=2 => 1,
        3..=5 => 10_u64.pow(rng.below(13) as u32),
        _ => any_number(rng).max(1),
    }
}

fn any_text(rng: &mut Rng) -> String {
    match rng.below(10) {
        0 => String::new(),
        1 => any_digit(rng).to_string(),
        2 => format!("{}x", any_digit(rng)),
        3 => format!("é{}", any_digit(rng)),
        4 => "x".repeat(rng.below(61)),
        5 => "·5".into(),
        6 => "5 1/2".into(),
        _ => any_number(rng).to_string(),
    }
}

fn any_kind(rng: &mut Rng) -> String {
    rng.pick(&["digit", "digit", "digit", "base", "large", "", "D1", "G4", "G4tag", "fraction", "num", "rom", "一"]).into()
}

fn any_record(rng: &mut Rng, character: char) -> Record {
    let kind = any_kind(rng);
    let value = (!rng.once_in(4)).then(|| any_number(rng));
    let digit = value.filter(|&v| kind == "digit" && v <= 9);
    Record {
        rom: match digit {
            Some(digit) => Some(digit.to_string()),
            None => (!rng.once_in(3)).then(|| any_text(rng)),
        },
        value,
        fraction: rng.once_in(5).then(|| (any_number(rng), any_number(rng).max(1))),
        base: (!rng.once_in(4)).then(|| any_base(rng)),
        mult: rng.once_in(5).then(|| any_number(rng)),
        script: (!rng.once_in(4)).then(|| rng.pick(&["CJK", "CJK", "CJK", "Arabic", ""]).into()),
        is_large_power: rng.once_in(4),
        ..Record::new(character, &kind)
    }
}

/// A table of up to 24 characters: those of the plain table often as they are there, the others with any fields.
fn table(rng: &mut Rng) -> Table {
    let plain = Table::plain();
    let mut records: Vec<Record> = Vec::new();
    let whole_plain = rng.once_in(3);
    if whole_plain {
        records = plain.records.clone();
    }
    for _ in 0..rng.below(25) {
        let character = any_character(rng);
        let known = plain.records.iter().find(|r| r.character == character);
        match known {
            Some(record) if !rng.once_in(3) => records.push(record.clone()),
            _ => records.push(any_record(rng, character)),
        }
    }
    // The last record of a character stands.
    records.reverse();
    records.sort_by_key(|r| r.character);
    records.dedup_by_key(|r| r.character);
    let lists = if rng.once_in(3) { plain.lists } else { lists(rng, &records) };
    Table { lists, records }
}

/// The plain table among 1,500 records, with forty strings in each list.
fn big_table(rng: &mut Rng) -> Table {
    let Table { mut lists, mut records } = Table::plain();
    let others = ('\u{4E00}'..).filter(|c| !PLAIN.contains(c)).take(1500 - PLAIN.len());
    records.extend(others.map(|character| any_record(rng, character)));
    records.sort_by_key(|r| r.character);
    for list in &mut lists {
        list.extend((1..40).map(|_| (0..=rng.below(3)).map(|_| rng.pick(&records).character).collect::<String>()));
    }
    Table { lists, records }
}

/// Markers and signs: usual ones, characters with a record, one inside another, one in two lists.
fn lists(rng: &mut Rng, records: &[Record]) -> [Vec<String>; 4] {
    let usual =
        ["百分之", "分之", "分", "之", "%", "％", "/", "+", "-", "−", "--", "-+", "零", "百", "五", "五百", "1", "x", "xx", "."];
    let mut marks: Vec<String> = usual.iter().map(|s| s.to_string()).collect();
    marks.extend(records.iter().map(|r| r.character.to_string()));
    // Few to choose from, so that lists share some.
    let few: Vec<String> = (0..5).map(|_| rng.pick(&marks)).collect();
    [0; 4].map(|_| (0..rng.below(4)).map(|_| if rng.once_in(2) { rng.pick(&few) } else { rng.pick(&marks) }).collect())
}

/// A line over the table's characters, its markers and signs, and some others.
fn line_over(rng: &mut Rng, table: &Table) -> String {
    let marks: Vec<String> = table.lists.concat();
    pieces(rng, |rng| match rng.below(10) {
        0..=6 if !table.records.is_empty() => rng.pick(&table.records).character.to_string(),
        7 | 8 if !marks.is_empty() => rng.pick(&marks),
        _ => any_character(rng).to_string(),
    })
}

/// A case with given edges: some of any class, some equal in start, end, txt and type to edges that the case gets without them.
fn given_case(rng: &mut Rng) -> Case {
    let table = if rng.once_in(2) { Table::plain() } else { table(rng) };
    let line = if rng.once_in(2) { marked_line(rng) } else { line_over(rng, &table) };
    let length = line.chars().count();
    if length == 0 {
        return Case::new(&line, &table, &[]);
    }
    let inputs = Decoder::default().inputs(&Case::new(&line, &table, &[])).expect("inside 01's domain");
    let made = inputs.answer();
    let made = made.as_ref().map_or(Vec::new(), |answer| answer.edges());
    let mut edges: Vec<Edge> = Vec::new();
    let most = if rng.once_in(40) { 1100 } else { 8 };
    for _ in 0..=rng.below(most) {
        let edge = match rng.below(8) {
            0 if !edges.is_empty() => rng.pick(&edges),
            1..=3 if !made.is_empty() => {
                let e = rng.pick(&made);
                Edge::new_regular(e.start(), e.end(), e.txt().into(), e.r#type().into())
            }
            _ => any_edge(rng, length),
        };
        edges.push(edge);
    }
    Case::new(&line, &table, &edges)
}

fn any_edge(rng: &mut Rng, length: usize) -> Edge {
    let start = rng.below(length);
    let most = if rng.once_in(3) { length - start } else { (length - start).min(3) };
    let kind = match rng.below(4) {
        0 => any_kind(rng),
        _ => rng
            .pick(&[
                "rom",
                "rom x",
                "rom decomp",
                "rom decomp x",
                "romdecomp",
                "rom deco",
                "Rom",
                "num",
                "nums",
                "nu",
                "other",
                "digit -",
                "percentage",
            ])
            .into(),
    };
    let txt = if rng.once_in(200) { "長9".repeat(1 + rng.below(9000)) } else { any_text(rng) };
    Edge::new_regular(start, start + 1 + rng.below(most), txt, kind)
}

/// The case with one or two edits to the bytes of its line, table or edges: most, not all, are refused 2 to 6.
fn faulty(rng: &mut Rng, mut case: Case) -> Case {
    for _ in 0..=rng.below(2) {
        let bytes = match rng.below(8) {
            0 | 1 => &mut case.line,
            2..=5 => &mut case.table,
            _ => &mut case.edges,
        };
        // Counts, lengths and maps are near the front of what they belong to.
        let most = if rng.once_in(2) { 40 } else { bytes.len() };
        let at = rng.below(bytes.len().min(most).max(1));
        match rng.below(6) {
            0 => bytes.truncate(at),
            1 => bytes.push(rng.next() as u8),
            2 => bytes.extend([0xED, 0xA0, 0x80]),
            3 if at < bytes.len() => bytes[at] = rng.pick(&[0, 1, 60, 61, 0x80, 0xFF]),
            4 if at < bytes.len() => bytes[at] ^= 1 << rng.below(8),
            _ => *bytes = bytes.repeat(1 + rng.below(40)),
        }
    }
    case
}

/// A line of a register: forty in a row share a table, which depends on seed and the register's number alone. No line holds a newline. Some are empty, some ill-formed or over-long;
/// one table in sixteen is damaged.
fn register_line(rng: &mut Rng, seed: u64, k: u64) -> Case {
    let common = &mut Rng(Rng(!seed).next() ^ Rng(!(k / 40)).next());
    let table = match common.below(32) {
        0..=11 => Table::plain(),
        12 => big_table(common),
        _ => table(common),
    };
    let line = match rng.below(16) {
        0..=3 => String::new(),
        4..=6 => marked_line(rng),
        7 => numeral(rng),
        8 | 9 => "register of 1886, plot ".chars().take(rng.length()).collect(),
        _ => line_over(rng, &table),
    };
    let mut case = Case::new(&line, &table, &[]);
    if common.once_in(16) {
        let at = common.below(case.table.len());
        case.table[at] ^= 1 << common.below(8);
    }
    let at = rng.below(case.line.len() + 1);
    match rng.below(24) {
        0 => case.line.truncate(at),
        1 => case.line.insert(at, rng.pick(&[0x80, 0xBF, 0xC0, 0xED, 0xF5, 0xFF])),
        2 => case.line = case.line.repeat(1 + rng.below(300)),
        _ => {}
    }
    case.line.retain(|&byte| byte != b'\n');
    case
}
