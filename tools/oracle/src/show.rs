//! Cases and answers as readable rows, and 01's marked lines.

use crate::bytes::{Refusal, TOP};
use crate::cases::{Case, Decoder};
use crate::edge::Edge;
use crate::table::Table;

/// 01's program prints the first five columns; the rest are the fields that are there.
pub fn row(e: &Edge) -> String {
    let active = match e.get_num_data() {
        None => "-",
        Some(n) if n.active => "1",
        Some(_) => "0",
    };
    let mut row = format!("{}\t{}\t{}\t{}\t{active}", e.start(), e.end(), e.r#type(), e.txt());
    let Some(n) = e.get_num_data() else { return row };
    let fields = [
        Some(format!("orig={}", n.orig_txt)),
        n.value.map(|v| format!("value={v}")),
        n.fraction.map(|f| format!("fraction={}/{}", f.numer(), f.denom())),
        n.num_base.map(|b| format!("base={b}")),
        n.base_multiplier.map(|m| format!("mult={m}")),
        n.script.as_ref().map(|s| format!("script={s}")),
        n.is_large_power.then(|| "large".into()),
        n.value_s.as_ref().map(|s| format!("value_s={s}")),
    ];
    row.push('\t');
    row.push_str(&fields.into_iter().flatten().collect::<Vec<String>>().join(" "));
    row
}

pub fn refused(r: Refusal) -> String {
    format!("refused {} {}", r.number, r.at)
}

/// The rows of the answer to a case.
pub fn rows(case: &Case) -> Vec<String> {
    let answer = Decoder::default().inputs(case).and_then(|inputs| inputs.answer());
    match answer.and_then(|answer| answer.listing().map(|_| answer)) {
        Err(refusal) => vec![refused(refusal)],
        Ok(answer) => answer.edges().into_iter().map(row).collect(),
    }
}

/// A case and its answer.
pub fn show(case: &Case) {
    println!("line   {}", String::from_utf8_lossy(&case.line));
    if let Ok(table) = Table::decode(&case.table) {
        if table == Table::plain() {
            println!("table  plain");
        } else {
            show_table(&table);
        }
    }
    if let Ok(inputs) = Decoder::default().inputs(case) {
        inputs.given.iter().for_each(|e| println!("given  {}", row(e)));
    }
    rows(case).iter().for_each(|row| println!("  {row}"));
}

fn show_table(table: &Table) {
    for (name, list) in ["percentage", "fraction", "plus", "minus"].iter().zip(&table.lists) {
        println!("{name:10} {list:?}");
    }
    for r in &table.records {
        println!(
            "record {} {:?} rom={:?} value={:?} fraction={:?} base={:?} mult={:?} script={:?} large={}",
            r.character, r.kind, r.rom, r.value, r.fraction, r.base, r.mult, r.script, r.is_large_power
        );
    }
}

/// The list after G4 of a plain line: start, end, value of each edge; or the refusal.
pub fn after_g4(line: &str) -> String {
    let case = Case::new(line, &Table::plain(), &[]);
    match Decoder::default().inputs(&case).and_then(|inputs| inputs.answer()) {
        Err(refusal) => refused(refusal),
        Ok(answer) => {
            let edge = |e: &Edge| format!("{} {} {}", e.start(), e.end(), e.value().unwrap_or(f64::NAN));
            answer.lists[4].iter().map(edge).collect::<Vec<String>>().join(", ")
        }
    }
}

/// The plain line of a whole number's decimal digits.
pub fn digits(n: u64) -> String {
    let digit = |c: char| "零一二三四五六七八九".chars().nth(c as usize - '0' as usize);
    n.to_string().chars().filter_map(digit).collect()
}

/// 01's marked lines, the empty line and the limits, each with what 01 says of it and with the Rust's list after G4.
pub fn marked() {
    let one = [
        ("一百零五", 105),
        ("二千五", 2005),
        ("一万五", 15_000),
        ("一万零五", 10_005),
        ("零万五", 5000),
        ("百零十", 110),
        ("億万", 100_010_000),
        ("二百万", 2_000_000),
        ("一二百", 1200),
    ];
    let mut agree = true;
    let mut check = |line: &str, says: &str, holds: bool, list: String| {
        agree &= holds;
        println!("{}\t{line}\t01: {says}\tRust: {list}", if holds { "agrees" } else { "DIFFERS" });
    };
    for (line, value) in one {
        let list = after_g4(line);
        check(line, &value.to_string(), list == format!("0 {} {value}", line.chars().count()), list);
    }
    for line in ["一百一百", "万億", "零百", "十十"] {
        let list = after_g4(line);
        check(line, "two edges", list.split(", ").count() == 2, list);
    }
    let list = after_g4("");
    check("(empty)", "no edge", list.is_empty(), list);
    for (n, says) in [(TOP, format!("0 16 {TOP}")), (TOP + 1, "refused 7 0".into())] {
        let list = after_g4(&digits(n));
        check(&digits(n), &says, list == says, list);
    }
    for (count, says) in [(256, "0 256 0"), (257, "refused 3 768")] {
        let list = after_g4(&"零".repeat(count));
        check(&format!("零 x {count}"), says, list == says, list);
    }
    println!("{}", if agree { "all agree" } else { "some differ" });
}
