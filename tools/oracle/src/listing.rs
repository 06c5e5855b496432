//! 01's listing: the old program's edges written as its bytes, and the given edges read with refusal 6.

use crate::bytes::{Reader, Refusal, refuse};
use crate::edge::{Edge, NumData};

/// What makes two edges of the lattice one. Answers are sorted by it: start, end, then the bytes of type, then those of txt.
pub fn key(e: &Edge) -> (usize, usize, &str, &str) {
    (e.start(), e.end(), e.r#type(), e.txt())
}

/// The listing of these edges, in this order. The count must fit in 16 bits.
pub fn encode<'a>(edges: impl IntoIterator<Item = &'a Edge>) -> Vec<u8> {
    let mut out = vec![0, 0];
    let mut count = 0_u16;
    for edge in edges {
        put_edge(&mut out, edge);
        count += 1;
    }
    out[..2].copy_from_slice(&count.to_le_bytes());
    out
}

fn put_u16(out: &mut Vec<u8>, n: usize) {
    out.extend(u16::try_from(n).expect("a number of 16 bits").to_le_bytes());
}

fn put_string(out: &mut Vec<u8>, s: &str) {
    put_u16(out, s.len());
    out.extend(s.bytes());
}

fn map_of(n: &NumData) -> usize {
    let bits = [
        true,
        n.value.is_some(),
        n.fraction.is_some(),
        n.num_base.is_some(),
        n.base_multiplier.is_some(),
        n.script.is_some(),
        n.is_large_power,
        n.active,
        n.value_s.is_some(),
    ];
    bits.iter().rev().fold(0, |map, &bit| map << 1 | usize::from(bit))
}

fn put_edge(out: &mut Vec<u8>, e: &Edge) {
    put_u16(out, e.get_num_data().map_or(0, map_of));
    put_u16(out, e.start());
    put_u16(out, e.end());
    put_string(out, e.r#type());
    put_string(out, e.txt());
    let Some(n) = e.get_num_data() else { return };
    assert!(n.n_decimals.is_none(), "decimals are outside 01");
    put_string(out, &n.orig_txt);
    if let Some(value) = n.value {
        out.extend(value.to_bits().to_le_bytes());
    }
    if let Some(fraction) = n.fraction {
        out.extend(fraction.numer().to_le_bytes());
        out.extend(fraction.denom().to_le_bytes());
    }
    if let Some(base) = n.num_base {
        out.extend(base.to_le_bytes());
    }
    if let Some(mult) = n.base_multiplier {
        out.extend(mult.to_bits().to_le_bytes());
    }
    for s in [&n.script, &n.value_s].into_iter().flatten() {
        put_string(out, s);
    }
}

/// The given edges: a listing of regular edges (map 0) over a line of `length` characters.
pub fn given(bytes: &[u8], length: usize) -> Result<Vec<Edge>, Refusal> {
    let mut r = Reader::new(bytes);
    let Some(count) = r.u16() else { return refuse(6, 0) };
    let mut edges = Vec::new();
    for _ in 0..count {
        let at = r.at;
        let Some(edge) = regular(&mut r).filter(|e| e.start() < e.end() && e.end() <= length) else {
            return refuse(6, at);
        };
        edges.push(edge);
    }
    if r.done() { Ok(edges) } else { refuse(6, r.at) }
}

fn regular(r: &mut Reader) -> Option<Edge> {
    r.u16().filter(|&map| map == 0)?;
    let (start, end) = (r.u16()?, r.u16()?);
    let (kind, txt) = (string(r)?, string(r)?);
    Some(Edge::new_regular(start.into(), end.into(), txt, kind))
}

fn string(r: &mut Reader) -> Option<String> {
    let length = r.u16()?;
    String::from_utf8(r.take(length.into())?.into()).ok()
}
