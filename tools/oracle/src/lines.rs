//! Real lines (bench/real_lines.py) read by the old Rust and by the new library, in one run (feature `library`). bench/README.md has the figures.
//! The Rust reads its table once, before the clock starts. The library checks it in every call: line by line, or, with the feature `lines`, once for all of them.

use std::hint::black_box;

use crate::bench::{Buffers, round};
use crate::cases::{Case, Decoder, Inputs};
use crate::table::{Record, Table};

const UNICODE: &str = "/usr/share/unicode/UnicodeData.txt";

/// One way to answer all lines.
type Way<'a> = (&'static str, Box<dyn FnMut() + 'a>);

/// The lines with one table, in the forms that each side reads.
struct Lines<'a> {
    text: &'a str,
    table: Vec<u8>,
    inputs: Vec<Inputs>,
}

/// `--table 16` or `--table 1500` takes one table. `--only WAY` leaves out the clock: that way is gone once, and once more in `counted`, for callgrind to count.
pub fn run(arguments: &[&str]) {
    let value = |name: &str| arguments.iter().position(|a| *a == name).map(|at| *arguments.get(at + 1).expect(name));
    let text = std::fs::read_to_string(arguments.first().expect("a file of lines")).expect("lines that are UTF-8");
    println!("| records | lines | without an edge | way | ns a line | Rust ns | ratio |");
    println!("|---|---|---|---|---|---|---|");
    for table in [Table::plain(), large()] {
        if value("--table").is_some_and(|n| n != table.records.len().to_string()) {
            continue;
        }
        let lines = Lines::new(&text, &table);
        match value("--only") {
            None => lines.rows(table.records.len()),
            Some(only) => lines.ways().iter_mut().filter(|(name, _)| *name == only).for_each(|(_, way)| {
                way();
                counted(way);
            }),
        }
    }
}

#[inline(never)]
fn counted(way: &mut dyn FnMut()) {
    black_box(way)();
}

impl Lines<'_> {
    fn new<'a>(text: &'a str, table: &Table) -> Lines<'a> {
        let mut decoder = Decoder::default();
        let mut inputs = |line| decoder.inputs(&Case::new(line, table, &[])).ok().expect("a case that is accepted");
        Lines { text, table: table.encode(), inputs: text.lines().map(&mut inputs).collect() }
    }

    fn rows(&self, records: usize) {
        let (count, mut buffers) = (self.inputs.len(), Buffers::new());
        let empty = self.text.lines().filter(|line| buffers.add_numbers(line.as_bytes(), &self.table, &[0, 0]) == (0, 2)).count();
        let mut ways = self.ways();
        let mut times: Vec<_> = ways.iter().map(|(name, _)| (*name, f64::INFINITY)).collect();
        // in turn, so that what else the machine does meets all of them
        for _ in 0..50 {
            for ((_, way), (_, least)) in ways.iter_mut().zip(&mut times) {
                *least = least.min(round(1, &mut |_| way()) / count as f64);
            }
        }
        let (_, rust) = times[0];
        for (name, time) in &times[1..] {
            println!("| {records} | {count} | {empty} | {name} | {time:.0} | {rust:.0} | {:.1} |", rust / time);
        }
    }

    fn ways(&self) -> Vec<Way<'_>> {
        let mut buffers = Buffers::new();
        let rust = || {
            for input in &self.inputs {
                let mut lattice = input.lattice();
                lattice.add_numbers();
                black_box(lattice.edges().count());
            }
        };
        let by_line = move || {
            for input in &self.inputs {
                black_box(buffers.add_numbers(input.line.as_bytes(), &self.table, &[0, 0]));
            }
        };
        let mut ways: Vec<Way> = vec![("rust", Box::new(rust)), ("line by line", Box::new(by_line))];
        in_one_call(&mut ways, &self.table, self.text);
        ways
    }
}

#[cfg(not(feature = "lines"))]
fn in_one_call<'a>(_: &mut Vec<Way<'a>>, _: &'a [u8], _: &'a str) {}

/// Outputs of 1 MiB, so that the lines take few pages.
#[cfg(feature = "lines")]
fn in_one_call<'a>(ways: &mut Vec<Way<'a>>, table: &'a [u8], text: &'a str) {
    let (mut work, mut out) = (vec![0; 65_536], vec![0; 1 << 20]);
    let pages = move || {
        let mut rest = text.as_bytes();
        while !rest.is_empty() {
            let (status, _, next) = page(rest, table, &mut work, &mut out);
            assert!(status == 0 && next > 0, "a page without an entry");
            rest = &rest[next as usize..];
        }
    };
    ways.push(("in one call", Box::new(pages)));
}

#[cfg(feature = "lines")]
fn page(lines: &[u8], table: &[u8], work: &mut [u8], out: &mut [u8]) -> (u32, u64, u64) {
    unsafe extern "C" {
        #[rustfmt::skip]
        fn rilvostam_add_numbers_to_lines(
            lines: *const u8, lines_len: usize, table: *const u8, table_len: usize,
            work: *mut u8, work_len: usize, out: *mut u8, out_len: usize, at: *mut u64, next: *mut u64,
        ) -> u32;
    }
    let (mut at, mut next) = (0, 0);
    // SAFETY: each pointer is that of a slice with its length, and the mutable ones overlap nothing.
    let status = unsafe {
        rilvostam_add_numbers_to_lines(
            lines.as_ptr(),
            lines.len(),
            table.as_ptr(),
            table.len(),
            work.as_mut_ptr(),
            work.len(),
            out.as_mut_ptr(),
            out.len(),
            &mut at,
            &mut next,
        )
    };
    (status, at, next)
}

/// The plain table and, in rising code point, so many other numeric characters of Unicode (field 8 of UnicodeData.txt) that there are 1,500 records. One is left out: ༳ is -1/2.
fn large() -> Table {
    let mut table = Table::plain();
    let known: Vec<char> = table.records.iter().map(|r| r.character).collect();
    let data = std::fs::read_to_string(UNICODE).expect(UNICODE);
    let others = data.lines().filter_map(numeric).filter(|r| !known.contains(&r.character));
    table.records.extend(others.take(1_500 - known.len()));
    table.records.sort_by_key(|r| r.character);
    table
}

/// The record of a line of UnicodeData.txt with a number: a digit with base 1, a whole number with the power of ten that it is a multiple of, or a fraction; script the first word of the name.
fn numeric(line: &str) -> Option<Record> {
    let fields: Vec<&str> = line.split(';').collect();
    let character = char::from_u32(u32::from_str_radix(fields[0], 16).ok()?)?;
    let script = fields[1].split(' ').next().map(String::from);
    let (rom, kind) = (Some(fields[8].into()), if fields[2] == "Nd" { "digit" } else { "number" });
    if let Some((numerator, denominator)) = fields[8].split_once('/') {
        let fraction = Some((numerator.parse().ok()?, denominator.parse().ok()?));
        return Some(Record { rom, fraction, script, ..Record::new(character, "fraction") });
    }
    let value: u64 = fields[8].parse().ok()?;
    let base = (0..).map(|n| 10_u64.pow(n)).find(|power| value == 0 || value % (power * 10) != 0);
    Some(Record { rom, value: Some(value), base, script, ..Record::new(character, kind) })
}
