//! Readings of 01 with the smallest input that tells them apart, each held against the old program's answer.

use crate::bytes::TOP;
use crate::cases::{Case, Decoder};
use crate::edge::Edge;
use crate::show::{digits, rows};
use crate::table::{Record, Table};

/// A statement about one case: rows that its answer has (their first columns) and strings that no row has.
struct Reading {
    says: &'static str,
    line: String,
    table: Table,
    given: Vec<Edge>,
    has: &'static [&'static str],
    lacks: &'static [&'static str],
}

fn on(line: &str, says: &'static str) -> Reading {
    Reading { says, line: line.into(), table: Table::plain(), given: vec![], has: &[], lacks: &[] }
}

impl Reading {
    fn has(self, has: &'static [&'static str]) -> Self {
        Reading { has, ..self }
    }

    fn lacks(self, lacks: &'static [&'static str]) -> Self {
        Reading { lacks, ..self }
    }

    fn given(mut self, start: usize, end: usize, kind: &str, txt: &str) -> Self {
        self.given.push(Edge::new_regular(start, end, txt.into(), kind.into()));
        self
    }

    /// List 0 to 3: percentage markers, connectors, plus signs, minus signs.
    fn list(mut self, number: usize, strings: &[&str]) -> Self {
        self.table.lists[number] = strings.iter().map(|s| s.to_string()).collect();
        self
    }

    /// Puts a record into the table, in place of the character's own if it has one.
    fn record(mut self, character: char, kind: &str, change: impl FnOnce(&mut Record)) -> Self {
        let mut record = Record::new(character, kind);
        change(&mut record);
        self.table.records.retain(|r| r.character != character);
        self.table.records.push(record);
        self.table.records.sort_by_key(|r| r.character);
        self
    }

    fn rows(&self) -> Vec<String> {
        let rows = rows(&Case::new(&self.line, &self.table, &self.given));
        rows.iter().map(|row| row.replace('\t', " ")).collect()
    }

    fn holds(&self, rows: &[String]) -> bool {
        let begins = |row: &str, want: &str| row == want || row.starts_with(&format!("{want} "));
        self.has.iter().all(|want| rows.iter().any(|row| begins(row, want)))
            && self.lacks.iter().all(|part| !rows.iter().any(|row| row.contains(part)))
    }
}

fn digit(value: u64) -> impl FnOnce(&mut Record) {
    move |r| (r.rom, r.value, r.base) = (Some(value.to_string()), Some(value), Some(1))
}

fn valued(value: u64, base: Option<u64>, large: bool) -> impl FnOnce(&mut Record) {
    move |r| (r.value, r.base, r.is_large_power, r.script) = (Some(value), base, large, Some("CJK".into()))
}

fn lattice() -> Vec<Reading> {
    let nines = "九".repeat(17);
    vec![
        on("一零二", "B1: after the fractions two active edges can share a span")
            .list(1, &["零"])
            .has(&["0 3 D1 102 1", "0 3 fraction 2/1 1"]),
        on("百百分之三", "B1, B10: two inactive edges on a span; F1's copy of an inactive edge is inactive")
            .has(&["1 2 base 100 0", "1 2 base ·100 0"]),
        on("一百", "B2: a given edge equal to a numeric one is kept; F1 turns nothing there; G1 still joins")
            .given(1, 2, "base", "100")
            .has(&["1 2 base 100 -", "0 2 G1 100 1"])
            .lacks(&["·"]),
        on("五百", "B2: that edge still counts as one whose txt ends with a digit").given(0, 1, "digit", "5").has(&[
            "0 1 digit 5 -",
            "1 2 base 100 0",
            "1 2 base ·100 1",
        ]),
        on("百分之五", "B2: percentages see only the regular edge").given(3, 4, "digit", "5").lacks(&["percentage"]),
        on("5", "B2: the fallback finds no numeric edge there and adds num")
            .record('5', "digit", digit(5))
            .given(0, 1, "digit", "5")
            .has(&["0 1 digit 5 -", "0 1 num 5 -"]),
        on("-五", "B2: G6 still uses the numeric edge").given(1, 2, "digit", "5").has(&["1 2 digit 5 -", "0 2 digit - -5 -"]),
        on(&nines, "B2: refusal 7 still goes by the numeric edge").given(0, 17, "D1", "99999999999999999").has(&["refused 7 0"]),
        on("x百分之五", "B3: a longer given edge hides the left number; the marker's own rule still holds")
            .given(0, 2, "q", "z")
            .has(&["1 5 percentage 5% -"])
            .lacks(&["0 5"]),
        on("十分之五", "B3: a given edge of the same span hides nothing").given(0, 1, "q", "z").has(&["0 4 fraction 5/10 1"]),
    ]
}

fn markers() -> Vec<Reading> {
    vec![
        on("百分之零五", "B4: right% writes the value, the marker's own rule the txt")
            .has(&["0 5 percentage 05% -", "0 5 percentage 5% -"]),
        on("五%三", "B5: a percentage marker with another left value falls to Otherwise").list(0, &["%"]).has(&[
            "0 1 digit 5 1",
            "1 3 percentage 3% -",
            "2 3 digit 3 0",
        ]),
        on("百%三", "B5: left 100 holds for a percentage marker too")
            .list(0, &["%"])
            .has(&["0 3 percentage 3% -", "0 1 base 100 0"])
            .lacks(&["1 3 percentage"]),
        on("五%½", "B5: Otherwise is reached where the right is numeric without value")
            .list(0, &["%"])
            .record('½', "x", |r| (r.rom, r.fraction) = (Some("1/2".into()), Some((2, 4))))
            .has(&["1 3 percentage 1/2% -", "2 3 x 1/2 0 orig=½ fraction=1/2"]),
        on("零分之五", "B6: a connector with left 0 gives nothing").lacks(&["fraction"]),
        on("五分之零", "B6: right 0 gives 0/1, txt 0/left, active").has(&["0 4 fraction 0/5 1 orig=0/5 fraction=0/1 script=CJK"]),
        on("五分之三", "B7: the longest marker hides shorter ones where it leads to nothing")
            .list(1, &["分之", "分之三"])
            .lacks(&["fraction"]),
        on("五%三", "B7: the same string in both lists is a percentage")
            .list(0, &["%"])
            .list(1, &["%"])
            .has(&["1 3 percentage 3% -"])
            .lacks(&["fraction"]),
        on("一分之二分之三", "B8: one edge serves several markers; used edges turn inactive afterwards").has(&[
            "0 4 fraction 2/1 1",
            "3 7 fraction 3/2 1",
            "3 4 digit 2 0",
        ]),
        on("-百分之五", "B12: G6 asks G4's list, not the lattice").has(&["0 2 base - -100 -", "1 2 base 100 0"]),
        on("-零", "B12: value 0 counts").has(&["0 2 digit - -0 -"]),
        on("-五", "B12: a sign lies wholly before the edge").list(3, &["-五"]).lacks(&["digit -"]),
        on("-五", "B12: a string in both sign lists gives two edges")
            .list(2, &["-"])
            .has(&["0 2 digit - -5 -", "0 2 digit + +5 -"]),
    ]
}

fn adjustments() -> Vec<Reading> {
    vec![
        on("x五", "B10: a given edge counts on the left").given(0, 1, "q", "a1").has(&["1 2 digit 5 0", "1 2 digit ·5 1"]),
        on("x五", "B10: U+11F50 is a decimal digit").given(0, 1, "q", "\u{11F50}").has(&["1 2 digit ·5 1"]),
        on("x五", "B10: U+1E4F9 is a decimal digit").given(0, 1, "q", "\u{1E4F9}").has(&["1 2 digit ·5 1"]),
        on("x五", "B10: ² is none").given(0, 1, "q", "²").lacks(&["·"]),
        on("五q", "B10: an empty txt neither begins nor ends with a digit")
            .record('q', "x", |r| (r.rom, r.value) = (Some("".into()), Some(5)))
            .has(&["1 2 x  1"])
            .lacks(&["·"]),
        on("五q", "B10: a space where the edge has a fraction, also beside a value")
            .record('q', "x", |r| (r.rom, r.value, r.fraction) = (Some("5".into()), Some(5), Some((1, 2))))
            .has(&["1 2 x 5 0", "1 2 x  5 1"]),
        on("百一二", "B10: the copy keeps value_s").has(&["1 3 D1 ·12 1 orig=一二 value=12 base=1 script=CJK value_s=12"]),
        on("一百", "B10: a copy that equals an edge is dropped; the original is inactive all the same")
            .given(1, 2, "base", "·100")
            .has(&["1 2 base ·100 -", "1 2 base 100 0"])
            .lacks(&["·100 1"]),
        on("二1三", "B11: the place itself decides, not an edge that covers it")
            .list(1, &["1"])
            .has(&["0 3 fraction 3/2 1", "1 2 num 1 -"]),
        on("百分之5", "B11: an inactive numeric edge counts")
            .record('5', "digit", digit(5))
            .has(&["3 4 digit 5 0"])
            .lacks(&["num "]),
        on("٣", "01: to_digit(10) knows ASCII only").lacks(&["num"]),
    ]
}

fn passes() -> Vec<Reading> {
    let top = "零".repeat(200) + &digits(TOP);
    let above = "零".repeat(200) + &digits(TOP + 1);
    vec![
        on("百〇", "B13: a gap without value or base joins always; base and script of the last are absent")
            .record('〇', "x", |_| ())
            .has(&["0 2 G2 100 1 orig=百〇 value=100"])
            .lacks(&["orig=百〇 value=100 "]),
        on("百零", "B13: a gap with value and base is compared like any other")
            .record('零', "x", valued(0, Some(1000), false))
            .lacks(&["G2"]),
        on("百零", "B13: a gap's value counts").record('零', "x", valued(7, Some(1), false)).has(&["0 2 G2 107 1"]),
        on("q零", "B13: an edge without base counts as base 0").record('q', "x", valued(5, None, false)).lacks(&["G2"]),
        on("〇〇", "B13: after gaps alone the next joins if it is a gap")
            .record('〇', "x", valued(0, Some(1), false))
            .has(&["0 2 G2 0 1"]),
        on("〇五", "B13: and does not if it is none").record('〇', "x", valued(0, Some(100), false)).lacks(&["G2"]),
        on("百零零十", "B13: 零零 is D1's edge and no gap").has(&["0 3 G2 100 1"]).lacks(&["0 4"]),
        on("q百", "B14: G1's left may be a large power with base 1")
            .record('q', "x", valued(3, Some(1), true))
            .has(&["0 2 G1 300 1"]),
        on("3百", "B14: a digit without base does not join in G1")
            .record('3', "digit", |r| (r.rom, r.value) = (Some("3".into()), Some(3)))
            .lacks(&["G1"]),
        on("33百", "B14: after D1 gave it base 1 it does")
            .record('3', "digit", |r| (r.rom, r.value) = (Some("3".into()), Some(3)))
            .has(&["0 3 G1 3300 1"]),
        on("万ab", "B15: G4's last is the last as counted")
            .record('a', "x", valued(5, Some(1), false))
            .record('b', "x", valued(6, Some(1), false))
            .has(&["0 3 G4 15600 1 orig=万ab value=15600 base=100"])
            .lacks(&["G4tag"]),
        on("33", "B16: D1's base is 1 whatever the digits' bases; fraction, mult and large power are dropped")
            .record('3', "digit", |r| {
                digit(3)(r);
                (r.base, r.mult, r.fraction, r.is_large_power) = (Some(7), Some(2), Some((1, 2)), true);
            })
            .has(&["0 2 D1 33 1 orig=33 value=33 base=1 value_s=33"])
            .lacks(&["D1 33 1 orig=33 value=33 base=1 mult", "base=1 large"]),
        on("三b", "B16: G1 drops fraction and mult")
            .record('b', "x", |r| (r.value, r.base, r.mult, r.fraction) = (Some(100), Some(100), Some(2), Some((1, 2))))
            .has(&["0 2 G1 300 1 orig=三b value=300 base=100"])
            .lacks(&["value=300 fraction", "value=300 base=100 "]),
        on("億万", "B16: G4's edge is no large power")
            .has(&["0 2 G4 100010000 1 orig=億万 value=100010000 base=10000 script=CJK"])
            .lacks(&["orig=億万 value=100010000 base=10000 script=CJK large"]),
        on(&top, "B17: leading zeros don't count towards TOP").lacks(&["refused"]),
        on(&above, "B17: 2^53 behind leading zeros is above TOP").has(&["refused 7 0"]),
        on("一.二", "B18: no decimal point, the point without a record").lacks(&["D1", "."]),
        on("一.二", "B18: no decimal point, the point with a record").record('.', "x", |_| ()).lacks(&["D1", "1."]),
        on("一.二", "B18: no decimal point, the point with a value")
            .record('.', "x", valued(0, Some(1), false))
            .lacks(&["D1", "1."]),
        on(&("九".repeat(15) + "千x" + &"九".repeat(17)), "A11: 7 goes by pass, then by place").has(&["refused 7 17"]),
        on(&"一百".repeat(128), "A13: a plain line's listing can be too long").has(&["refused 8 0"]),
    ]
}

/// The list that `deactivate_exceptional_singles` marks, and the same edges in the finished lattice.
fn singles() -> bool {
    let jing = || on("京兆", "").record('京', "large", valued(10_u64.pow(15), Some(10_u64.pow(15)), true));
    let cases = [on("万", ""), on("兩", "").record('兩', "digit", digit(2)), on("伍", "").record('伍', "x", |_| ()), jing()];
    cases.iter().all(|r| {
        let inputs = Decoder::default().inputs(&Case::new(&r.line, &r.table, &[])).expect("inside 01's domain");
        let local = inputs.lattice().singles_marked();
        let answer = inputs.answer().expect("no value above TOP");
        let whole = |e: &&Edge| e.end() - e.start() == r.line.chars().count();
        let marked = local.iter().find(whole).is_some_and(|e| !e.is_active());
        let left = answer.edges().into_iter().find(whole).is_some_and(|e| e.is_active());
        println!("{}\t{}: inactive in the local list: {marked}; active in the lattice: {left}", verdict(marked && left), r.line);
        marked && left
    })
}

fn verdict(holds: bool) -> &'static str {
    if holds { "holds" } else { "FAILS" }
}

pub fn run() {
    let mut all = true;
    for reading in [lattice(), markers(), adjustments(), passes()].into_iter().flatten() {
        let rows = reading.rows();
        let holds = reading.holds(&rows);
        all &= holds;
        let line: String = reading.line.chars().take(40).collect();
        println!("{}\t{}\t{line}", verdict(holds), reading.says);
        if !holds || rows.len() < 8 {
            rows.iter().for_each(|row| println!("\t\t{row}"));
        }
    }
    all &= singles();
    println!("{}", if all { "all hold" } else { "some fail" });
}
