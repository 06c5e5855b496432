//! Stand-in for the old `dicts`: the same facade over a table in 01's form. What the numbers never ask is left out or empty.

use std::cell::RefCell;
use std::collections::{HashMap, HashSet};
use std::rc::Rc;

use crate::table::{Record, Table};

thread_local! {
    /// Every list string seen so far: the old code keeps them as `&'static str`.
    static STRINGS: RefCell<HashSet<&'static str>> = RefCell::default();
}

fn lasting(s: &str) -> &'static str {
    STRINGS.with_borrow_mut(|seen| match seen.get(s) {
        Some(known) => known,
        None => {
            let new: &'static str = Box::leak(s.into());
            seen.insert(new);
            new
        }
    })
}

#[derive(Clone)]
pub struct Dicts {
    records: Rc<HashMap<String, Record>>,
    lists: Rc<[Vec<&'static str>; 4]>,
}

impl Dicts {
    pub fn new(table: Table) -> Self {
        let lists = table.lists.map(|list| list.iter().map(|s| lasting(s)).collect());
        let records = table.records.into_iter().map(|r| (r.character.to_string(), r));
        Dicts { records: Rc::new(records.collect()), lists: Rc::new(lists) }
    }

    pub fn num_prop(&self, s: &str) -> Option<&Record> {
        self.records.get(s)
    }

    pub fn percentage_markers(&self) -> impl Iterator<Item = &'static str> {
        self.lists[0].iter().copied()
    }

    pub fn fraction_connectors(&self) -> impl Iterator<Item = &'static str> {
        self.lists[1].iter().copied()
    }

    pub fn plus_signs(&self) -> impl Iterator<Item = &'static str> {
        self.lists[2].iter().copied()
    }

    pub fn minus_signs(&self) -> impl Iterator<Item = &'static str> {
        self.lists[3].iter().copied()
    }

    pub fn chr_script_name(&self, _: char) -> &'static str {
        ""
    }

    pub fn is_vowel_sign(&self, _: char) -> bool {
        false
    }

    pub fn is_letter(&self, _: char) -> bool {
        false
    }

    pub fn is_subjoined_letter(&self, _: char) -> bool {
        false
    }

    pub fn rom_rules(&self, _: &str) -> &'static [Rule] {
        &[]
    }
}

/// What the old code reads of a record, in its names and types.
impl Record {
    pub fn rom(&self) -> Option<&str> {
        self.rom.as_deref()
    }

    pub fn num_type(&self) -> &str {
        &self.kind
    }

    pub fn value(&self) -> Option<f64> {
        self.value.map(|n| n as f64)
    }

    pub fn fraction_parts(&self) -> Option<(i64, i64)> {
        self.fraction.map(|(numerator, denominator)| (numerator as i64, denominator as i64))
    }

    pub fn base(&self) -> Option<i64> {
        self.base.map(|n| n as i64)
    }

    pub fn mult(&self) -> Option<f64> {
        self.mult.map(|n| n as f64)
    }

    pub fn script(&self) -> Option<&str> {
        self.script.as_deref()
    }
}

/// Romanisation rules: none are ever found, so no method of theirs runs.
pub enum Rule {}

impl Rule {
    pub fn target(&self) -> Option<&str> {
        match *self {}
    }

    pub fn alt_targets(&self) -> std::slice::Iter<'_, String> {
        match *self {}
    }

    pub fn end_of_syllable_target(&self) -> Option<&str> {
        match *self {}
    }
}
