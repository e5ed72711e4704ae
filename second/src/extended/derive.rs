//! Where an extended pattern fits, by its derivatives: what is still to come of it after a byte is a set of rows, and these are
//! carried over the text once, each with the smallest start that leads to it.

use super::{Pattern, Row, Times, Tree};
use crate::matching::Letters;
use crate::place::Place;
use std::collections::{BTreeMap, HashMap};

pub fn matches(pattern: &Pattern, text: &[u8], letters: Letters) -> bool {
    match letters {
        Letters::AsWritten => place(pattern, text).is_some(),
        Letters::EitherForm => place(&pattern.on_names(), text).is_some(),
    }
}

/// "The smallest start, and of those the longest length", whichever alternative it takes.
///
/// Two starts that lead to the same rest have the same ends from there on, so the larger one is not needed.
pub fn place(pattern: &Pattern, text: &[u8]) -> Option<Place> {
    let mut rests = Rests::default();
    let [first, later] = [true, false].map(|first| rests.beginnings(pattern, first));
    let mut carried = Carried::new();
    let mut found: Option<Place> = None;
    for end in 0..=text.len() {
        if found.is_none() {
            for &rest in if end == 0 { &first } else { &later } {
                carried.entry(rest).or_insert(end);
            }
        }
        let fitting = carried.iter().filter(|(&rest, _)| rests.may_end(rest, end == text.len()));
        if let Some(start) = fitting.map(|(_, &start)| start).min() {
            found = Some(Place { start, length: end - start });
            carried.retain(|_, other| *other <= start);
        }
        if end < text.len() {
            carried = rests.carried_over(&carried, text[end]);
        }
    }
    found
}

/// Each rest by its number, with the smallest start that leads to it.
type Carried = BTreeMap<usize, usize>;

/// What is still to come of an alternative outside groups.
#[derive(Clone, PartialEq, Eq, Hash)]
struct Rest {
    row: Row,
    at_end: bool,
}

/// Every rest met so far has a number, and its derivatives are kept.
#[derive(Default)]
struct Rests {
    all: Vec<Rest>,
    numbers: HashMap<Rest, usize>,
    after: HashMap<(usize, u8), Vec<usize>>,
}

impl Rests {
    /// The alternatives that may begin at the first place of a text, or at a later one.
    fn beginnings(&mut self, pattern: &Pattern, first: bool) -> Vec<usize> {
        let alternatives = pattern.alternatives.iter().filter(|alternative| first || !alternative.at_start);
        let rests =
            alternatives.map(|alternative| Rest { row: alternative.row.clone(), at_end: alternative.at_end });
        rests.map(|rest| self.number(rest)).collect()
    }

    fn number(&mut self, rest: Rest) -> usize {
        let next = self.all.len();
        let number = *self.numbers.entry(rest.clone()).or_insert(next);
        if number == next {
            self.all.push(rest);
        }
        number
    }

    fn may_end(&self, rest: usize, at_end: bool) -> bool {
        let rest = &self.all[rest];
        (at_end || !rest.at_end) && rest.row.iter().all(fits_empty)
    }

    fn carried_over(&mut self, carried: &Carried, byte: u8) -> Carried {
        let mut over = Carried::new();
        for (&rest, &start) in carried {
            for &after in self.after(rest, byte) {
                let smallest = over.entry(after).or_insert(start);
                *smallest = start.min(*smallest);
            }
        }
        over
    }

    fn after(&mut self, rest: usize, byte: u8) -> &[usize] {
        if !self.after.contains_key(&(rest, byte)) {
            let Rest { row, at_end } = self.all[rest].clone();
            let rows = derived_row(&row, byte);
            let numbers = rows.into_iter().map(|row| self.number(Rest { row, at_end })).collect();
            self.after.insert((rest, byte), numbers);
        }
        &self.after[&(rest, byte)]
    }
}

fn fits_empty(tree: &Tree) -> bool {
    match tree {
        Tree::Element(_) => false,
        Tree::Group(rows) => rows.iter().any(|row| row.iter().all(fits_empty)),
        Tree::Repeat(tree, times) => times.least == 0 || fits_empty(tree),
    }
}

/// The byte goes to the first tree of the row, or to a later one if all before it fit the empty text.
fn derived_row(row: &[Tree], byte: u8) -> Vec<Row> {
    let mut rows = Vec::new();
    for (index, tree) in row.iter().enumerate() {
        rows.extend(derived(tree, byte).into_iter().map(|rest| [&rest, &row[index + 1..]].concat()));
        if !fits_empty(tree) {
            break;
        }
    }
    rows
}

/// What is still to come of a tree after a byte: one of these rows.
fn derived(tree: &Tree, byte: u8) -> Vec<Row> {
    match tree {
        Tree::Element(set) if set.has(byte) => vec![Row::new()],
        Tree::Element(_) => vec![],
        Tree::Group(rows) => rows.iter().flat_map(|row| derived_row(row, byte)).collect(),
        Tree::Repeat(_, Times { most: Some(0), .. }) => vec![],
        Tree::Repeat(repeated, times) => {
            let fewer = Tree::Repeat(repeated.clone(), one_less(*times));
            derived(repeated, byte).into_iter().map(|rest| [rest, vec![fewer.clone()]].concat()).collect()
        }
    }
}

/// The turn that took the byte is counted, and no empty ones before it: those can as well come after it.
fn one_less(times: Times) -> Times {
    Times { least: times.least.saturating_sub(1), most: times.most.map(|most| most - 1) }
}
