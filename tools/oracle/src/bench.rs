//! Old Rust and new library on the same cases, in one run (feature `library`: build.rs links librilvostam.a). bench/README.md has the figures.
//! The Rust is timed twice: the lattice with `add_numbers` alone, and with its reading of line, table and edges before it. The library does both in each call.

use std::hint::black_box;
use std::time::{Duration, Instant};

use crate::cases::{Case, Decoder};
use crate::edge::Edge;
use crate::table::{Record, Table};

unsafe extern "C" {
    #[rustfmt::skip]
    fn rilvostam_add_numbers(
        line: *const u8, line_len: usize, table: *const u8, table_len: usize, edges: *const u8, edges_len: usize,
        work: *mut u8, work_len: usize, out: *mut u8, out_len: usize, at: *mut u64,
    ) -> u32;
}

pub struct Buffers {
    work: Vec<u8>,
    out: Vec<u8>,
}

impl Buffers {
    pub fn new() -> Buffers {
        Buffers { work: vec![0; 65_536], out: vec![0; 32_768] }
    }

    fn call(&mut self, c: &Case) -> (u32, u64) {
        self.add_numbers(&c.line, &c.table, &c.edges)
    }

    pub fn add_numbers(&mut self, line: &[u8], table: &[u8], edges: &[u8]) -> (u32, u64) {
        let mut at = 0;
        // SAFETY: each pointer is that of a slice with its length, and the mutable ones overlap nothing.
        let status = unsafe {
            rilvostam_add_numbers(
                line.as_ptr(),
                line.len(),
                table.as_ptr(),
                table.len(),
                edges.as_ptr(),
                edges.len(),
                self.work.as_mut_ptr(),
                self.work.len(),
                self.out.as_mut_ptr(),
                self.out.len(),
                &mut at,
            )
        };
        (status, at)
    }
}

/// The least of fifty rounds of at least 20 ms each, as the time of one call: short rounds find the moments in which nothing else runs.
fn least(cases: usize, mut call: impl FnMut(usize)) -> f64 {
    (0..50).map(|_| round(cases, &mut call)).fold(f64::INFINITY, f64::min)
}

pub fn round(cases: usize, call: &mut impl FnMut(usize)) -> f64 {
    let (start, mut count) = (Instant::now(), 0);
    loop {
        for index in 0..cases {
            call(index);
        }
        count += cases;
        let elapsed = start.elapsed();
        if elapsed > Duration::from_millis(20) {
            return elapsed.as_nanos() as f64 / count as f64;
        }
    }
}

fn row(name: &str, cases: &[Case]) {
    let mut buffers = Buffers::new();
    for case in cases {
        assert_eq!(buffers.call(case).0, 0, "{name}: a case is refused");
    }
    let inputs: Vec<_> = cases.iter().map(|c| Decoder::default().inputs(c).ok().expect("accepted by the library")).collect();
    let new = least(cases.len(), |k| {
        black_box(buffers.call(&cases[k]));
    });
    let alone = least(cases.len(), |k| {
        let mut lattice = inputs[k].lattice();
        lattice.add_numbers();
        black_box(lattice.edges().count());
    });
    let whole = least(cases.len(), |k| {
        let inputs = Decoder::default().inputs(&cases[k]).ok().expect("read before");
        let mut lattice = inputs.lattice();
        lattice.add_numbers();
        black_box(lattice.edges().count());
    });
    println!("| {name} | {new:.0} | {alone:.0} | {:.1} | {whole:.0} | {:.1} |", alone / new, whole / new);
}

/// The plain table with so many records more, of a kind that most lines don't have.
fn table_of(count: usize) -> Table {
    let mut table = Table::plain();
    let known: Vec<char> = table.records.iter().map(|r| r.character).collect();
    let others = ('\u{3400}'..).filter(|c| !known.contains(c)).take(count.saturating_sub(16));
    table.records.extend(others.map(|c| Record { rom: Some("r".into()), value: Some(7), script: Some("CJK".into()), ..Record::new(c, "other") }));
    table.records.sort_by_key(|r| r.character);
    table
}

/// Numbers with other characters between them, of so many characters.
fn line_of(length: usize) -> String {
    "一百二十三xy五万".chars().cycle().take(length).collect()
}

fn given(count: usize, length: usize) -> Vec<Edge> {
    (0..count).map(|k| Edge::new_regular(k % length, k % length + 1, format!("t{k}"), "other".into())).collect()
}

pub fn run() {
    println!("| cases | library ns | Rust ns | ratio | Rust with its reading ns | ratio |");
    println!("|---|---|---|---|---|---|");
    let plain = Table::plain();
    let short = ["一万五", "二千五", "一百零五", "第五百二十三号", "百分之五", "九千零七兆一千九百九十二億五千四百", "x", ""];
    row("plain lines of up to 20 characters", &short.map(|line| Case::new(line, &plain, &[])));
    for length in [16, 64, 256] {
        row(&format!("a line of {length} characters"), &[Case::new(&line_of(length), &plain, &[])]);
    }
    for count in [150, 1_500, 15_000, 65_535] {
        row(&format!("a line of 20, a table of {count} records"), &[Case::new(&line_of(20), &table_of(count), &[])]);
    }
    row("a line of 256, a table of 65535 records", &[Case::new(&line_of(256), &table_of(65_535), &[])]);
    for count in [10, 100, 900] {
        row(&format!("a line of 20, {count} given edges"), &[Case::new(&line_of(20), &plain, &given(count, 20))]);
    }
    // a longer line would have more than 1,024 edges beside them
    row("a line of 3, 1000 given edges", &[Case::new(&line_of(3), &plain, &given(1_000, 3))]);
    let marks: String = "五分之一".chars().cycle().take(200).collect();
    row("a line of 200 with 50 connectors", &[Case::new(&marks, &plain, &[])]);
}
