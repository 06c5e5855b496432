//! The cases that the gate replays (crates/replay, stdin and stdout; tools/replay_cases.py writes them), through the bindings.

use rilvostam::{Edge, Refusal, add_numbers_into, edges};

fn read(name: &str) -> Vec<u8> {
    std::fs::read(format!("{}/../../crates/replay/{name}", env!("CARGO_MANIFEST_DIR"))).unwrap()
}

/// The next so many bytes.
fn next<'a>(bytes: &mut &'a [u8], size: usize) -> &'a [u8] {
    bytes.split_off(..size).unwrap()
}

/// A refusal as the answers have it: u8 number and u32 offset or place.
fn bytes(r: Refusal) -> Vec<u8> {
    [&[r.number() as u8][..], &(r.at as u32).to_le_bytes()].concat()
}

/// A text as a listing has it.
fn text(text: &str) -> Vec<u8> {
    [&(text.len() as u16).to_le_bytes()[..], text.as_bytes()].concat()
}

/// The bytes of an edge, written anew from its fields.
fn edge_bytes(e: Edge) -> Vec<u8> {
    let (mut map, mut fields) = (0, Vec::new());
    if let Some(n) = e.num {
        let (numerator, denominator) = n.fraction.unzip();
        let numbers = [n.value.map(f64::to_bits), numerator, denominator, n.base, n.base_multiplier.map(f64::to_bits)];
        fields = text(n.orig_txt);
        fields.extend(numbers.into_iter().flatten().flat_map(u64::to_le_bytes));
        fields.extend([n.script, n.value_s].into_iter().flatten().flat_map(text));
        fields.extend(n.decimals);
        let bits = [true, n.value.is_some(), numerator.is_some(), n.base.is_some(), n.base_multiplier.is_some(), n.script.is_some(), n.large_power, n.active, n.value_s.is_some(), n.decimals.is_some()];
        map = bits.iter().rev().fold(0, |map, &bit| map << 1 | u16::from(bit));
    }
    let head = [map, e.start as u16, e.end as u16].map(u16::to_le_bytes).concat();
    [head, text(e.kind), text(e.txt), fields].concat()
}

#[test]
fn replay() {
    let (stdin, stdout) = (read("stdin"), read("stdout"));
    let (mut cases, mut answers) = (&stdin[..], &stdout[..]);
    let (mut work, mut out) = (vec![0; rilvostam::WORK], vec![0; rilvostam::OUT]);
    let (mut last, mut count) = (&[][..], 0);
    while !cases.is_empty() {
        let head = next(&mut cases, 6);
        let sizes = [0, 2, 4].map(|at| u16::from_le_bytes([head[at], head[at + 1]]) as usize);
        let [line, table, given] = sizes.map(|size| next(&mut cases, size));
        last = if table.is_empty() { last } else { table };
        let size = u32::from_le_bytes(next(&mut answers, 4).try_into().unwrap());
        let ours = match add_numbers_into(line, last, given, &mut work, &mut out) {
            Ok(length) => out[..length].to_vec(),
            Err(refusal) => bytes(refusal),
        };
        assert_eq!(ours, next(&mut answers, size as usize), "case {count}");
        // The iterator reads a listing to its end, and every field: written anew it is the same.
        if ours.len() != 5 {
            assert_eq!(edges(&ours).count(), u16::from_le_bytes([ours[0], ours[1]]).into(), "case {count}");
            assert_eq!(edges(&ours).flat_map(edge_bytes).collect::<Vec<_>>(), ours[2..], "case {count}");
        }
        count += 1;
    }
    assert_eq!((count, answers), (2177, &[][..]));
}
