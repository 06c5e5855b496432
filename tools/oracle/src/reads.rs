//! The reading calls on a finished lattice: best edges, neighbours and paths, each as a span and a class. README.md has the form.

use crate::edge::Edge;
use crate::lattice::Lattice;

/// 01's classes of the best edge, from the first choice down; 0 is no edge.
pub fn class(e: Option<&Edge>) -> u8 {
    match e {
        None => 0,
        Some(Edge::Numeric { num_data, .. }) if num_data.active => 1,
        Some(Edge::Numeric { .. }) => 5,
        Some(e) if e.r#type().starts_with("rom decomp") => 3,
        Some(e) if e.r#type().starts_with("rom") || e.r#type().starts_with("num") => 2,
        Some(_) => 4,
    }
}

fn put_place(out: &mut Vec<u8>, place: Option<usize>) {
    out.extend(place.map_or(u16::MAX, |p| p as u16).to_le_bytes());
}

/// The pairs of start and end whose path is shown: all of a short line, four of a longer one.
pub fn path_ends(length: usize) -> Vec<(usize, usize)> {
    if length > 8 {
        let (third, half) = (length / 3, length / 2);
        return vec![(0, length), (0, half), (third, half), (third, length)];
    }
    (0..=length).flat_map(|start| (start..=length).map(move |end| (start, end))).collect()
}

pub fn encode(lattice: &mut Lattice, length: usize) -> Vec<u8> {
    let mut out = Vec::new();
    for skip in [false, true] {
        for start in 0..=length {
            for end in start..=length {
                out.push(class(lattice.best_edge(start, end, skip).as_ref()));
            }
        }
        for place in 0..=length {
            let right = lattice.right_neighbor(place, skip);
            put_place(&mut out, right.as_ref().map(Edge::end));
            out.push(class(right.as_ref()));
            let left = lattice.left_neighbor(place, skip);
            put_place(&mut out, left.as_ref().map(Edge::start));
            out.push(class(left.as_ref()));
        }
        for (start, end) in path_ends(length) {
            let path = lattice.best_rom_edge_path(start, end, skip);
            put_place(&mut out, Some(path.len()));
            for edge in &path {
                put_place(&mut out, Some(edge.start()));
                put_place(&mut out, Some(edge.end()));
                out.push(class(Some(edge)));
            }
        }
    }
    out
}
