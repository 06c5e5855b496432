//! Which number a line is: the question that a clerk asks.

use crate::{Edge, NO_EDGES, Refusal, add_numbers, edges};

/// A number of a line.
#[derive(Clone, Debug, PartialEq)]
pub struct Number {
    /// Where it starts: characters of the line before it.
    pub start: usize,
    /// Where it ends, likewise.
    pub end: usize,
    /// What it reads as.
    pub txt: String,
    /// Its value, where it is no fraction.
    pub value: Option<f64>,
    /// Numerator and denominator, where it is one.
    pub fraction: Option<(u64, u64)>,
}

/// What [`which_number`] answers.
#[derive(Clone, Debug, PartialEq)]
pub enum Which {
    /// The whole line is this one number.
    Whole(Number),
    /// The numbers in the line, longest first; none where it has none.
    Parts(Vec<Number>),
}

/// Which number is this line? The whole line, where just one active number spans it; else all active numbers in it, longest first, of equally long ones the one that starts first,
/// then in listing order. A part of a longer number is one of them too. Percentages and numbers with a sign are regular edges, without a value, and are none.
///
/// ```
/// use rilvostam::{Which, plain_table, which_number};
/// let Which::Whole(number) = which_number("一万五", &plain_table())? else { panic!() };
/// assert_eq!(number.value, Some(15000.0));
/// let Which::Parts(numbers) = which_number("墓三号x二十", &plain_table())? else { panic!() };
/// let found: Vec<_> = numbers.iter().map(|n| (n.start, n.end, n.value.unwrap())).collect();
/// assert_eq!(found, [(4, 6, 20.0), (1, 2, 3.0), (4, 5, 2.0), (5, 6, 10.0)]);
/// # Ok::<(), rilvostam::Refusal>(())
/// ```
pub fn which_number(line: &str, table: &[u8]) -> Result<Which, Refusal> {
    let listing = add_numbers(line, table, NO_EDGES)?;
    let mut numbers: Vec<Number> = edges(&listing).filter_map(number_of).collect();
    numbers.sort_by_key(|n| (std::cmp::Reverse(n.end - n.start), n.start)); // it keeps the listing's order of what is equal
    let characters = line.chars().count();
    let whole = numbers.iter().take_while(|n| n.end - n.start == characters).count();
    Ok(if whole == 1 { Which::Whole(numbers.swap_remove(0)) } else { Which::Parts(numbers) })
}

/// An active numeric edge with a value or a fraction.
fn number_of(e: Edge) -> Option<Number> {
    let num = e.num.filter(|n| n.active && (n.value.is_some() || n.fraction.is_some()))?;
    Some(Number { start: e.start, end: e.end, txt: e.txt.into(), value: num.value, fraction: num.fraction })
}
