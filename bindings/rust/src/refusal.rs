//! Why a call was refused, in the words of `include/rilvostam.h`.

use std::error::Error;
use std::fmt;

/// One line for each refusal: its cause and number, the header's name for it, its sentence, and what [`Refusal::at`] says with it.
macro_rules! causes {
    ($($cause:ident = $number:literal, $name:literal, $sentence:literal, $place:literal;)*) => {
        /// The cause of a refusal.
        #[derive(Clone, Copy, Debug, PartialEq, Eq, Hash)]
        #[non_exhaustive]
        pub enum Cause {
            $(#[doc = concat!("Refusal ", $number, ": ", $sentence, ".")] $cause,)*
            /// A number that this version does not know.
            Other(u32),
        }

        impl Refusal {
            pub(crate) fn new(number: u32, at: u64) -> Refusal {
                let cause = match number {
                    $($number => Cause::$cause,)*
                    other => Cause::Other(other),
                };
                Refusal { cause, at }
            }

            /// Number, name, sentence, and what `at` says.
            fn words(&self) -> (u32, &'static str, &'static str, &'static str) {
                match self.cause {
                    $(Cause::$cause => ($number, $name, $sentence, $place),)*
                    Cause::Other(number) => (number, "UNKNOWN", "the library has no such answer", ""),
                }
            }
        }
    };
}

causes! {
    ShortWork = 1, "SHORT_WORK", "the work space has under 65,536 bytes", "";
    NotUtf8 = 2, "NOT_UTF8", "the line is not well-formed UTF-8", "offset of the first ill-formed sequence";
    OverLong = 3, "OVER_LONG", "the line has over 256 characters", "offset of the 257th";
    TableLayout = 4, "TABLE_LAYOUT", "the bytes are no table: an item is cut off, too long or has a bit that may not stand, or bytes are left over", "offset of the item, or of what is left over";
    TableContent = 5, "TABLE_CONTENT", "the table has a record or a string that may not stand in one", "offset of the record or string";
    BadListing = 6, "BAD_LISTING", "the bytes are no listing, or have an edge that may not stand over the line", "offset of the edge, or of what is left over";
    AboveTop = 7, "ABOVE_TOP", "a number of the line is above 9,007,199,254,740,991", "place where the number starts";
    TooLong = 8, "TOO_LONG", "the listing has over 1,024 edges or over 32,768 bytes, or what is to be written is longer than the output", "";
    BadPlace = 9, "BAD_PLACE", "a place is past the end of the line, or start is after end", "";
    NumberAboveTop = 10, "NUMBER_ABOVE_TOP", "the number to be written is above 9,007,199,254,740,991", "";
    SumAboveTop = 11, "SUM_ABOVE_TOP", "the sum's numerator or denominator, in lowest terms, is above 9,007,199,254,740,991", "index of the edge in the listing";
    NotOneMark = 12, "NOT_ONE_MARK", "the line has not just one □, or it has another character outside the plain table", "";
    NoneServes = 13, "NONE_SERVES", "none of the sixteen characters makes the line a numeral up to 9,007,199,254,740,991", "";
}

/// A refusal: its cause, and the place that goes with it. As an error it says number, name, sentence and place.
///
/// ```
/// let refusal = rilvostam::read_field(b"x\xFF").unwrap_err();
/// assert_eq!((refusal.number(), refusal.name(), refusal.at), (2, "NOT_UTF8", 1));
/// assert_eq!(refusal.place(), "offset of the first ill-formed sequence");
/// assert_eq!(refusal.to_string(), "refused 2 NOT_UTF8: the line is not well-formed UTF-8 (offset of the first ill-formed sequence: 1)");
/// ```
#[derive(Clone, Copy, Debug, PartialEq, Eq, Hash)]
pub struct Refusal {
    /// Why.
    pub cause: Cause,
    /// The offset in bytes, the place in characters or the index of an edge that goes with it, or 0: what [`Refusal::place`] says.
    pub at: u64,
}

impl Refusal {
    /// The library's number of the refusal, 1 to 13.
    pub fn number(&self) -> u32 {
        self.words().0
    }

    /// Its name in `include/rilvostam.h`, without the prefix: `NOT_UTF8`.
    pub fn name(&self) -> &'static str {
        self.words().1
    }

    /// What is wrong.
    pub fn sentence(&self) -> &'static str {
        self.words().2
    }

    /// What `at` is; empty where it is 0.
    pub fn place(&self) -> &'static str {
        self.words().3
    }
}

impl fmt::Display for Refusal {
    fn fmt(&self, f: &mut fmt::Formatter) -> fmt::Result {
        let (number, name, sentence, place) = self.words();
        write!(f, "refused {number} {name}: {sentence}")?;
        if place.is_empty() { Ok(()) } else { write!(f, " ({place}: {})", self.at) }
    }
}

impl Error for Refusal {}

#[cfg(test)]
mod tests {
    use super::*;

    /// The header's words, number by number: the lines of `rilvostam_in_words`.
    #[test]
    fn words_are_the_headers() {
        let header = include_str!("../../../include/rilvostam.h");
        let lines = header.lines().filter_map(|line| line.trim().strip_prefix("{\"")?.strip_suffix("\"},"));
        let mut count = 0;
        for (words, number) in lines.zip(0..) {
            let refusal = Refusal::new(number, 0);
            let ours = [refusal.name(), refusal.sentence(), refusal.place()].join("\", \"");
            assert!(number == 0 || ours == words, "{words}");
            assert!(number == 0 || header.contains(&format!("RILVOSTAM_{} = {number}", refusal.name())), "{words}");
            count += 1;
        }
        assert_eq!((count, Refusal::new(count, 0).name()), (14, "UNKNOWN"));
    }
}
