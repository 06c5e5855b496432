//! Rows, as document 01's program prints them; of many lines each row behind the line's number.

use rilvostam::{Edge, Refusal};
use std::io::{self, Write};

fn front(number: Option<u64>, out: &mut dyn Write) -> io::Result<()> {
    number.map_or(Ok(()), |number| write!(out, "{number}\t"))
}

pub fn edge(number: Option<u64>, edge: &Edge, out: &mut dyn Write) -> io::Result<()> {
    front(number, out)?;
    let active = edge.num.map_or('-', |num| if num.active { '1' } else { '0' });
    writeln!(out, "{}\t{}\t{}\t{}\t{active}", edge.start, edge.end, edge.kind, edge.txt)
}

pub fn field(number: Option<u64>, value: Option<u64>, out: &mut dyn Write) -> io::Result<()> {
    front(number, out)?;
    match value {
        Some(value) => writeln!(out, "{value}"),
        None => writeln!(out, "no number"),
    }
}

pub fn refusal(number: Option<u64>, refusal: &Refusal, out: &mut dyn Write) -> io::Result<()> {
    front(number, out)?;
    writeln!(out, "refused\t{}\t{}", refusal.number(), refusal.at)
}
