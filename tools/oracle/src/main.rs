//! The old program as judge: runs the Rust of the papers, unchanged, on cases in 01's byte forms. See README.md.

#[cfg(feature = "library")]
mod bench;
mod bytes;
mod cases;
mod category;
mod dicts;
mod generate;
#[cfg(feature = "library")]
mod lines;
mod listing;
mod readings;
mod reads;
mod show;
mod table;

// The old code. It is not ours to tidy.
#[rustfmt::skip]
#[allow(dead_code, clippy::all)]
#[path = "../build/old/edge.rs"]
mod edge;
#[rustfmt::skip]
#[allow(dead_code, clippy::all)]
#[path = "../build/old/lattice/mod.rs"]
mod lattice;

// numbers.rs names a crate `unicode_properties`; this program stands for it with these two names.
extern crate self as unicode_properties;
pub use category::{GeneralCategory, UnicodeGeneralCategory};

use std::io::{self, BufRead, Write};
use std::time::{Duration, Instant};

use bytes::Refusal;
use cases::{Answer, Case, Decoder, put_frame};
use table::Table;

const USAGE: &str = "oracle answer [--passes] [--reads] | finished | foreign --seed S --count N | gen --family F --seed S --count N [--from K] | show | line TEXT.. | marked | readings | plain-table | time";

fn main() -> io::Result<()> {
    let arguments: Vec<String> = std::env::args().skip(1).collect();
    let rest: Vec<&str> = arguments.iter().skip(1).map(String::as_str).collect();
    let mut input = io::stdin().lock();
    let mut out = io::BufWriter::new(io::stdout().lock());
    match arguments.first().map_or("", String::as_str) {
        "answer" => answers(&mut input, &mut out, rest.contains(&"--passes"), rest.contains(&"--reads"))?,
        "gen" => generate::write(&rest, &mut out)?,
        "finished" => finished(&mut input, &mut out)?,
        "foreign" => foreign(&rest, &mut out)?,
        "show" => {
            while let Some(case) = Case::read(&mut input)? {
                show::show(&case)
            }
        }
        "line" => rest.iter().for_each(|line| show::show(&Case::new(line, &Table::plain(), &[]))),
        "marked" => show::marked(),
        "readings" => readings::run(),
        "plain-table" => println!("{}", hex(&Table::plain().encode())),
        "time" => time(&mut input)?,
        #[cfg(feature = "library")]
        "bench" => bench::run(),
        #[cfg(feature = "library")]
        "lines" => lines::run(&rest),
        _ => {
            eprintln!("{USAGE}");
            std::process::exit(2);
        }
    }
    out.flush()
}

fn hex(bytes: &[u8]) -> String {
    bytes.iter().map(|b| format!("{b:02x}")).collect()
}

/// A refusal's frame: 5 bytes, which is the length of no listing.
fn refusal(r: Refusal) -> Vec<u8> {
    let mut bytes = vec![r.number];
    bytes.extend((r.at as u32).to_le_bytes());
    bytes
}

/// Answers every case. On a refusal the frames that were asked for besides are empty.
fn answers(input: &mut impl BufRead, out: &mut impl Write, passes: bool, reads: bool) -> io::Result<()> {
    let mut decoder = Decoder::default();
    while let Some(case) = Case::read(input)? {
        let answer = decoder.inputs(&case).and_then(|inputs| {
            let answer = inputs.answer()?;
            let listing = answer.listing()?;
            Ok((inputs.line.chars().count(), answer, listing))
        });
        match answer {
            Err(r) => {
                put_frame(out, &refusal(r))?;
                for _ in 0..5 * usize::from(passes) + usize::from(reads) {
                    put_frame(out, &[])?;
                }
            }
            Ok((length, Answer { mut lattice, lists }, listing)) => {
                put_frame(out, &listing)?;
                for list in lists.iter().filter(|_| passes) {
                    put_frame(out, &listing::encode(list))?;
                }
                if reads {
                    put_frame(out, &reads::encode(&mut lattice, length))?;
                }
            }
        }
    }
    Ok(())
}

/// For each case that is accepted three frames: line, listing, and what the reading calls find in it.
fn finished(input: &mut impl BufRead, out: &mut impl Write) -> io::Result<()> {
    let mut decoder = Decoder::default();
    while let Some(case) = Case::read(input)? {
        let Ok(inputs) = decoder.inputs(&case) else { continue };
        let Ok(mut answer) = inputs.answer() else { continue };
        let Ok(listing) = answer.listing() else { continue };
        put_frame(out, &case.line)?;
        put_frame(out, &listing)?;
        put_frame(out, &reads::encode(&mut answer.lattice, inputs.line.chars().count()))?;
    }
    Ok(())
}

/// The same three frames for lines and listings that no call made.
fn foreign(arguments: &[&str], out: &mut impl Write) -> io::Result<()> {
    let (seed, count) = (generate::number(arguments, "--seed", 1), generate::number(arguments, "--count", 1000));
    let dicts = Decoder::default().inputs(&Case::new("", &Table::plain(), &[])).ok().expect("the plain table").dicts;
    for k in 0..count {
        let (line, edges) = generate::foreign(seed, k);
        let mut lattice = lattice::Lattice::new(&line, dicts.clone(), None);
        for edge in &edges {
            lattice.add_edge(edge.clone());
        }
        put_frame(out, line.as_bytes())?;
        put_frame(out, &listing::encode(&edges))?;
        put_frame(out, &reads::encode(&mut lattice, line.chars().count()))?;
    }
    Ok(())
}

/// Mean times a case: reading line, table and edges into the old forms, and the lattice with `add_numbers`.
fn time(input: &mut impl BufRead) -> io::Result<()> {
    let (mut reading, mut adding) = (Duration::ZERO, Duration::ZERO);
    let (mut count, mut refused, mut edges) = (0_u32, 0_u32, 0);
    while let Some(case) = Case::read(input)? {
        count += 1;
        let start = Instant::now();
        let inputs = Decoder::default().inputs(&case);
        reading += start.elapsed();
        let Ok(inputs) = inputs else {
            refused += 1;
            continue;
        };
        let start = Instant::now();
        let mut lattice = inputs.lattice();
        lattice.add_numbers();
        adding += start.elapsed();
        edges += lattice.edges().count();
    }
    let mean = |d: Duration| d.as_nanos() / u128::from(count.max(1));
    println!("{count} cases, {refused} refused before any pass, {edges} edges");
    println!("{} ns a case for reading it, {} ns for the lattice with add_numbers", mean(reading), mean(adding));
    Ok(())
}
