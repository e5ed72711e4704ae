//! Extended patterns (change request 6): a tree read by descent, matched by its derivatives. Nothing asks for them yet.

pub mod derive;
pub mod read;
pub mod tried;

pub use derive::{matches, place};
pub use read::read;

use crate::pattern::Set;
use std::rc::Rc;

/// What is fitted one after the other.
pub type Row = Vec<Tree>;

#[derive(Clone, PartialEq, Eq, Hash, Debug)]
pub enum Tree {
    Element(Set),
    /// The alternatives between `(` and `)`.
    Group(Rc<[Row]>),
    Repeat(Rc<Tree>, Times),
}

#[derive(Clone, Copy, PartialEq, Eq, Hash, Debug)]
pub struct Times {
    pub least: usize,
    /// Any number if `None`.
    pub most: Option<usize>,
}

/// An alternative outside groups: an anchor binds only the one that it stands in.
#[derive(Clone, PartialEq, Eq, Debug)]
pub struct Alternative {
    pub at_start: bool,
    pub at_end: bool,
    pub row: Row,
}

#[derive(Clone, PartialEq, Eq, Debug)]
pub struct Pattern {
    pub alternatives: Vec<Alternative>,
}

impl Pattern {
    /// "elements with intervals written out"
    pub fn elements(&self) -> usize {
        self.alternatives
            .iter()
            .map(|alternative| row_elements(&alternative.row))
            .fold(0, usize::saturating_add)
    }

    /// "On a name an element meets a byte if it meets its lower or its upper form."
    pub fn on_names(&self) -> Pattern {
        let either = |alternative: &Alternative| Alternative {
            row: row_on_names(&alternative.row),
            ..alternative.clone()
        };
        Pattern { alternatives: self.alternatives.iter().map(either).collect() }
    }
}

impl Times {
    /// "n copies for `{m,n}`, the larger of m and 1 for `{m,}`"
    fn copies(self) -> usize {
        self.most.unwrap_or(self.least.max(1))
    }
}

fn row_elements(row: &[Tree]) -> usize {
    row.iter().map(Tree::elements).fold(0, usize::saturating_add)
}

fn row_on_names(row: &[Tree]) -> Row {
    row.iter().map(Tree::on_names).collect()
}

impl Tree {
    fn elements(&self) -> usize {
        match self {
            Tree::Element(_) => 1,
            Tree::Group(rows) => rows.iter().map(|row| row_elements(row)).fold(0, usize::saturating_add),
            Tree::Repeat(tree, times) => tree.elements().saturating_mul(times.copies()),
        }
    }

    fn on_names(&self) -> Tree {
        match self {
            Tree::Element(set) => Tree::Element(set_on_names(set)),
            Tree::Group(rows) => Tree::Group(rows.iter().map(|row| row_on_names(row)).collect()),
            Tree::Repeat(tree, times) => Tree::Repeat(Rc::new(tree.on_names()), *times),
        }
    }
}

/// The set of a `^` list is negated already, so `[^f]` meets `f`.
fn set_on_names(set: &Set) -> Set {
    let mut either = Set::EMPTY;
    for byte in 0..=255u8 {
        if set.has(byte.to_ascii_lowercase()) || set.has(byte.to_ascii_uppercase()) {
            either.add(byte);
        }
    }
    either
}
