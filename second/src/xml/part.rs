//! Sets of texts, put together from sets of bytes.

use super::element::Element;
use crate::pattern::Set;

/// What a byte gives to the criteria, beside its place in the text.
#[derive(Clone, Copy, PartialEq, Eq, Debug)]
pub enum Gives {
    Nothing,
    /// An element begins.
    Begin(Element),
    /// The byte belongs to the element's value.
    Itself,
    /// This byte, for which an entity stands, belongs to the value.
    Stands(u8),
}

pub enum Part {
    Byte(Set, Gives),
    /// One after the other.
    Row(Vec<Part>),
    Choice(Vec<Part>),
    OneOrMore(Box<Part>),
}

pub fn byte(set: Set) -> Part {
    Part::Byte(set, Gives::Nothing)
}

/// The bytes of a word; the last one gives something.
pub fn word(bytes: &str, gives: Gives) -> Part {
    let last = bytes.len() - 1;
    let gives = |place| if place == last { gives } else { Gives::Nothing };
    Part::Row(
        bytes.bytes().enumerate().map(|(place, byte)| Part::Byte(Set::of(byte), gives(place))).collect(),
    )
}

pub fn plain(bytes: &str) -> Part {
    word(bytes, Gives::Nothing)
}

pub fn none_or_one(part: Part) -> Part {
    Part::Choice(vec![part, Part::Row(Vec::new())])
}

pub fn one_or_more(part: Part) -> Part {
    Part::OneOrMore(Box::new(part))
}

pub fn none_or_more(part: Part) -> Part {
    none_or_one(one_or_more(part))
}

pub fn one_of(bytes: &[u8]) -> Set {
    bytes.iter().fold(Set::EMPTY, |mut set, &byte| {
        set.add(byte);
        set
    })
}

pub fn none_of(bytes: &[u8]) -> Set {
    one_of(bytes).complement()
}
