//! Objects of JSON, each on a row. What an edge does not have is left out; `active` is null for a regular edge.

use rilvostam::{Edge, Refusal};
use std::fmt::Write as _;
use std::io::{self, Write};

/// An object: its members, with commas between.
struct Object(String);

impl Object {
    fn new(number: Option<u64>) -> Object {
        let mut object = Object("{".into());
        if let Some(number) = number {
            object.put("line", number);
        }
        object
    }

    fn put(&mut self, name: &str, value: impl std::fmt::Display) {
        let comma = if self.0.len() > 1 { "," } else { "" };
        write!(self.0, "{comma}\"{name}\":{value}").expect("a string takes everything");
    }

    fn print(self, out: &mut dyn Write) -> io::Result<()> {
        writeln!(out, "{}}}", self.0)
    }
}

fn text(text: &str) -> String {
    let mut quoted = String::from('"');
    for c in text.chars() {
        match c {
            '"' | '\\' => quoted.extend(['\\', c]),
            c if c < ' ' => write!(quoted, "\\u{:04x}", c as u32).expect("a string takes everything"),
            c => quoted.push(c),
        }
    }
    quoted + "\""
}

/// A number of JSON; null for what it has no number for.
fn float(value: f64) -> String {
    if value.is_finite() { value.to_string() } else { "null".into() }
}

pub fn edge(number: Option<u64>, edge: &Edge, out: &mut dyn Write) -> io::Result<()> {
    let mut object = Object::new(number);
    object.put("start", edge.start);
    object.put("end", edge.end);
    object.put("type", text(edge.kind));
    object.put("txt", text(edge.txt));
    object.put("active", edge.num.map_or("null", |num| if num.active { "true" } else { "false" }));
    if let Some(num) = edge.num {
        object.put("orig_txt", text(num.orig_txt));
        num.value.inspect(|value| object.put("value", float(*value)));
        num.fraction.inspect(|(above, below)| object.put("fraction", format!("[{above},{below}]")));
        num.base.inspect(|base| object.put("base", base));
        num.base_multiplier.inspect(|mult| object.put("mult", float(*mult)));
        num.script.inspect(|script| object.put("script", text(script)));
        object.put("large_power", num.large_power);
        num.value_s.inspect(|digits| object.put("value_s", text(digits)));
        num.decimals.inspect(|decimals| object.put("decimals", decimals));
    }
    object.print(out)
}

pub fn field(number: Option<u64>, value: Option<u64>, out: &mut dyn Write) -> io::Result<()> {
    let mut object = Object::new(number);
    object.put("value", value.map_or("null".into(), |value| value.to_string()));
    object.print(out)
}

pub fn refusal(number: Option<u64>, refusal: &Refusal, out: &mut dyn Write) -> io::Result<()> {
    let mut object = Object::new(number);
    object.put("refused", refusal.number());
    object.put("name", text(refusal.name()));
    object.put("at", refusal.at);
    object.put("sentence", text(refusal.sentence()));
    object.print(out)
}
