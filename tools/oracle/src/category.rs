//! Stand-in for the crate `unicode_properties`: the old code asks only for the category Nd (decimal number).

// The table that setup writes from UnicodeData.txt 15.0, the same that the regexes' `\d` reads.
#[path = "../build/regex-syntax/src/unicode_tables/perl_decimal.rs"]
mod decimal;

pub use decimal::DECIMAL_NUMBER;

#[derive(PartialEq)]
pub enum GeneralCategory {
    DecimalNumber,
    Other,
}

pub trait UnicodeGeneralCategory {
    fn general_category(self) -> GeneralCategory;
}

impl UnicodeGeneralCategory for char {
    fn general_category(self) -> GeneralCategory {
        if DECIMAL_NUMBER.iter().any(|&(first, last)| (first..=last).contains(&self)) {
            GeneralCategory::DecimalNumber
        } else {
            GeneralCategory::Other
        }
    }
}
