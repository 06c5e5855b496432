//! Cases and answers as bytes: what goes in and out of the oracle, and the old program's answer to a case.
//!
//! A frame is a u32 length (little-endian) and so many bytes. A case is three frames: line, table, edge list.
//! README.md describes the frames of an answer.

use std::io::{self, Read, Write};

use crate::bytes::{Refusal, TOP, refuse};
use crate::dicts::Dicts;
use crate::edge::Edge;
use crate::lattice::Lattice;
use crate::listing;
use crate::table::Table;

/// A call's three inputs, as bytes.
#[derive(Clone, PartialEq)]
pub struct Case {
    pub line: Vec<u8>,
    pub table: Vec<u8>,
    pub edges: Vec<u8>,
}

pub fn put_frame(out: &mut impl Write, bytes: &[u8]) -> io::Result<()> {
    out.write_all(&(bytes.len() as u32).to_le_bytes())?;
    out.write_all(bytes)
}

fn get_frame(input: &mut impl Read) -> io::Result<Vec<u8>> {
    let mut length = [0; 4];
    input.read_exact(&mut length)?;
    let mut bytes = vec![0; u32::from_le_bytes(length) as usize];
    input.read_exact(&mut bytes)?;
    Ok(bytes)
}

impl Case {
    pub fn new(line: &str, table: &Table, edges: &[Edge]) -> Case {
        Case { line: line.into(), table: table.encode(), edges: listing::encode(edges) }
    }

    pub fn write(&self, out: &mut impl Write) -> io::Result<()> {
        [&self.line, &self.table, &self.edges].into_iter().try_for_each(|bytes| put_frame(out, bytes))
    }

    /// The next case, or `None` at the end of the input.
    pub fn read(input: &mut impl io::BufRead) -> io::Result<Option<Case>> {
        if input.fill_buf()?.is_empty() {
            return Ok(None);
        }
        Ok(Some(Case { line: get_frame(input)?, table: get_frame(input)?, edges: get_frame(input)? }))
    }
}

/// A case that passed 01's checks 2 to 6.
pub struct Inputs {
    pub line: String,
    pub dicts: Dicts,
    pub given: Vec<Edge>,
}

/// Reads cases; keeps the last table, since runs of cases share one.
#[derive(Default)]
pub struct Decoder {
    last: Option<(Vec<u8>, Dicts)>,
}

impl Decoder {
    pub fn inputs(&mut self, case: &Case) -> Result<Inputs, Refusal> {
        let line = line(&case.line)?;
        let dicts = self.dicts(&case.table)?;
        let given = listing::given(&case.edges, line.chars().count())?;
        Ok(Inputs { line, dicts, given })
    }

    fn dicts(&mut self, bytes: &[u8]) -> Result<Dicts, Refusal> {
        match &self.last {
            Some((known, dicts)) if known == bytes => Ok(dicts.clone()),
            _ => {
                let dicts = Dicts::new(Table::decode(bytes)?);
                self.last = Some((bytes.into(), dicts.clone()));
                Ok(dicts)
            }
        }
    }
}

fn line(bytes: &[u8]) -> Result<String, Refusal> {
    match std::str::from_utf8(bytes) {
        Err(e) => refuse(2, e.valid_up_to()),
        Ok(line) => match line.char_indices().nth(256) {
            Some((offset, _)) => refuse(3, offset),
            None => Ok(line.into()),
        },
    }
}

/// The old program's answer: the finished lattice and the lists after D1, G1, G2, G3 and G4.
pub struct Answer {
    pub lattice: Lattice,
    pub lists: [Vec<Edge>; 5],
}

impl Inputs {
    /// The lattice with the given edges only.
    pub fn lattice(&self) -> Lattice {
        let mut lattice = Lattice::new(&self.line, self.dicts.clone(), None);
        for edge in &self.given {
            lattice.add_edge(edge.clone());
        }
        lattice
    }

    /// Runs `add_numbers`, and the five passes once more on a second lattice to see their lists. Refuses 7 by those.
    pub fn answer(&self) -> Result<Answer, Refusal> {
        let lists = self.lattice().pass_lists();
        let above = |e: &&Edge| e.value().is_some_and(|v| v > TOP as f64);
        // A record's value is at most TOP, so the first edge above TOP was made by the pass whose list it is in.
        if let Some(edge) = lists.iter().flatten().find(above) {
            return refuse(7, edge.start());
        }
        let mut lattice = self.lattice();
        lattice.add_numbers();
        Ok(Answer { lattice, lists })
    }
}

impl Answer {
    /// The set of edges, sorted by `listing::key`.
    pub fn edges(&self) -> Vec<&Edge> {
        let mut edges: Vec<&Edge> = self.lattice.edges().collect();
        edges.sort_by(|a, b| listing::key(a).cmp(&listing::key(b)));
        edges
    }

    /// The set as a listing, or refusal 8 where 01 allows no listing of it, whatever the output's length.
    pub fn listing(&self) -> Result<Vec<u8>, Refusal> {
        let edges = self.edges();
        if edges.len() > 1024 {
            return refuse(8, 0);
        }
        let listing = listing::encode(edges);
        if listing.len() > 32_768 { refuse(8, 0) } else { Ok(listing) }
    }
}
