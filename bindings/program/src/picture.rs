//! A line as a picture: its characters in a row, its edges as arcs over them, each with txt and type; shorter edges lie below longer ones. Active, inactive and regular edges differ
//! in colour and in their stroke.

use rilvostam::Edge;
use std::fmt::Write;

const MARGIN: usize = 24;
const STEP: usize = 46; // from one level of arcs to the next
const NARROWEST: usize = 44; // a character's cell
const WIDEST: usize = 140;
const WIDTH: usize = 320; // at least, for the legend

/// How an edge is drawn: its class, and the word for it in the legend.
const CLASSES: [(&str, &str); 3] = [("active", "active: it counts"), ("inactive", "inactive: used up in another, or written anew"), ("regular", "regular: not numeric")];

const STYLE: &str = "text{font-family:'Noto Sans CJK SC','Noto Sans CJK JP','Source Han Sans',sans-serif;text-anchor:middle;fill:#222}
.line{font-size:26px}.place{font-size:10px;fill:#777}.txt{font-size:13px;font-weight:bold}.type{font-size:10px;fill:#555}.key{font-size:11px;text-anchor:start}
path{fill:none}.active{stroke:#0b5fa5;stroke-width:2.5}.inactive{stroke:#888;stroke-width:1.5;stroke-dasharray:5 4}.regular{stroke:#b5450b;stroke-width:2.5;stroke-dasharray:1 4;stroke-linecap:round}";

fn class(edge: &Edge) -> &'static str {
    CLASSES[edge.num.map_or(2, |num| if num.active { 0 } else { 1 })].0
}

/// Text for XML: what XML may not have is U+FFFD.
fn xml(text: &str) -> String {
    let mut escaped = String::new();
    for c in text.chars() {
        match c {
            '&' => escaped.push_str("&amp;"),
            '<' => escaped.push_str("&lt;"),
            '>' => escaped.push_str("&gt;"),
            '"' => escaped.push_str("&quot;"),
            '\t' | '\n' | '\r' => escaped.push(' '),
            c if c < ' ' || c == '\u{FFFE}' || c == '\u{FFFF}' => escaped.push('\u{FFFD}'),
            c => escaped.push(c),
        }
    }
    escaped
}

/// About how many pixels a text is wide, at so many for a Latin letter.
fn pixels(text: &str, letter: usize) -> usize {
    text.chars().map(|c| if c.is_ascii() { letter } else { letter * 7 / 4 }).sum()
}

/// The characters that an edge spans, at least one.
fn span(edge: &Edge) -> usize {
    (edge.end - edge.start).max(1)
}

/// The width of a character's cell, so that the labels of edges side by side do not meet.
fn cell(edges: &[Edge]) -> usize {
    let wants = |e: &Edge| (pixels(e.txt, 8).max(pixels(e.kind, 6)) + 16).div_ceil(span(e));
    edges.iter().map(wants).max().unwrap_or(0).clamp(NARROWEST, WIDEST)
}

/// The edges with their levels, from 1 on: each above the shorter ones, and those of its own length before it, that it shares a character with.
fn levels<'a>(edges: &[Edge<'a>]) -> Vec<(Edge<'a>, usize)> {
    let mut sorted = edges.to_vec();
    sorted.sort_by_key(span); // it keeps the listing's order of what is equal
    let mut placed: Vec<(Edge, usize)> = Vec::new();
    for e in sorted {
        let meets = |(other, level): &(Edge, usize)| (e.start < other.start + span(other) && other.start < e.start + span(&e)).then_some(*level);
        let level = placed.iter().filter_map(meets).max().unwrap_or(0) + 1;
        placed.push((e, level));
    }
    placed
}

/// An arc over the characters of an edge, the sides of higher ones further out; with its label and, for a pointer that rests on it, its fields.
fn arc(edge: &Edge, level: usize, cell: usize, ground: usize) -> String {
    let apart = 14 - 3 * level.min(4);
    let from = MARGIN + edge.start * cell + apart;
    let to = MARGIN + (edge.start + span(edge)) * cell - apart;
    let (top, middle) = (ground - level * STEP + 18, (from + to) / 2);
    let bend = 12.min((to - from) / 2);
    let path = format!(
        "M{from} {ground}V{}Q{from} {top} {} {top}H{}Q{to} {top} {to} {}V{ground}",
        top + bend,
        from + bend,
        to - bend,
        top + bend
    );
    let fields = format!("{} to {}: {} ({}), {}", edge.start, edge.end, edge.txt, edge.kind, class(edge));
    format!(
        "<g><title>{}</title><path class=\"{}\" d=\"{path}\"/><text class=\"txt\" x=\"{middle}\" y=\"{}\">{}</text><text class=\"type\" x=\"{middle}\" y=\"{}\">{}</text></g>\n",
        xml(&fields),
        class(edge),
        top - 5,
        xml(edge.txt),
        top + 11,
        xml(edge.kind)
    )
}

/// The characters of the line, each in its cell, and the places between them.
fn characters(line: &str, cell: usize, ground: usize) -> String {
    let mut drawn = String::new();
    let (count, at) = (line.chars().count(), |place: usize| MARGIN + place * cell);
    for (place, c) in line.chars().enumerate() {
        let shown = if c.is_whitespace() { '␣' } else { c };
        let _ = writeln!(drawn, "<text class=\"line\" x=\"{}\" y=\"{}\">{}</text>", at(place) + cell / 2, ground + 32, xml(&shown.to_string()));
    }
    for place in 0..=count {
        let _ = writeln!(drawn, "<text class=\"place\" x=\"{}\" y=\"{}\">{place}</text>", at(place), ground + 50);
    }
    drawn
}

fn legend(y: usize) -> String {
    let mut drawn = String::new();
    for (i, (class, word)) in CLASSES.iter().enumerate() {
        let y = y + i * 16;
        let _ = writeln!(drawn, "<path class=\"{class}\" d=\"M{MARGIN} {y}h36\"/><text class=\"key\" x=\"{}\" y=\"{}\">{word}</text>", MARGIN + 46, y + 4);
    }
    drawn
}

/// The picture of a line with the edges of its listing.
pub fn svg(line: &str, listing: &[u8]) -> String {
    let edges: Vec<Edge> = rilvostam::edges(listing).collect();
    let (cell, placed) = (cell(&edges), levels(&edges));
    let highest = placed.iter().map(|(_, level)| *level).max().unwrap_or(0);
    let ground = MARGIN + highest * STEP + 4;
    let (width, height) = ((2 * MARGIN + line.chars().count() * cell).max(WIDTH), ground + 130);
    let arcs: String = placed.iter().rev().map(|(edge, level)| arc(edge, *level, cell, ground)).collect();
    format!(
        "<svg xmlns=\"http://www.w3.org/2000/svg\" width=\"{width}\" height=\"{height}\" viewBox=\"0 0 {width} {height}\">\n<title>{}</title>\n<style>{STYLE}</style>\n<rect width=\"100%\" height=\"100%\" fill=\"#fff\"/>\n{arcs}{}{}</svg>\n",
        xml(line),
        characters(line, cell, ground),
        legend(ground + 76)
    )
}

#[cfg(test)]
mod tests {
    use super::*;

    fn drawn(line: &str) -> String {
        let listing = rilvostam::add_numbers(line, &rilvostam::plain_table(), rilvostam::NO_EDGES).unwrap();
        svg(line, &listing)
    }

    #[test]
    fn an_arc_for_each_edge() {
        let picture = drawn("百分之五");
        let arcs = |class: &str| picture.matches(&format!("<path class=\"{class}\" d=\"M")).count() - 1; // one is the legend's
        assert_eq!(["active", "inactive", "regular"].map(arcs), [0, 2, 1]);
        assert!(picture.contains(">5%</text>") && picture.contains(">percentage</text>"));
    }

    #[test]
    fn edges_that_meet_lie_on_levels_of_their_own() {
        let listing = rilvostam::add_numbers("一万五", &rilvostam::plain_table(), rilvostam::NO_EDGES).unwrap();
        let edges: Vec<Edge> = rilvostam::edges(&listing).collect();
        let placed = levels(&edges);
        assert_eq!(placed.len(), edges.len());
        for (i, (a, level)) in placed.iter().enumerate() {
            assert!(placed[..i].iter().all(|(b, other)| a.end <= b.start || b.end <= a.start || other < level));
        }
    }

    #[test]
    fn what_xml_may_not_have() {
        let picture = drawn("<&\u{1}\"五");
        assert!(picture.contains("<title>&lt;&amp;\u{FFFD}&quot;五</title>"));
        assert!(!picture.contains('\u{1}'));
    }
}
