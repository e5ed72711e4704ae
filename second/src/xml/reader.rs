//! Reads a text of the subset by carrying, from byte to byte, all the places of the subset at which its beginning may end. A text
//! of the subset goes on with a byte exactly if some place is left: from each place there is a way to the end.

use super::element::Element;
use super::part::{Gives, Part};
use super::subset::subset;
use crate::pattern::Set;
use crate::twist::{twisted, Twist};

pub const TEXT_MOST: usize = 65_535;

fn text_most() -> usize {
    match () {
        _ if twisted(Twist::XmlText65535Refused) => TEXT_MOST - 1,
        _ if twisted(Twist::XmlText65536Taken) => TEXT_MOST + 1,
        _ => TEXT_MOST,
    }
}

/// An element in the order of the text, with its value; a compound's is empty.
#[derive(Clone, PartialEq, Eq, Debug)]
pub struct Leaf {
    pub element: Element,
    pub value: Vec<u8>,
}

/// The places of the subset: 0 before its first byte, each other one behind a byte of it.
pub struct Reader {
    takes: Vec<Set>,
    gives: Vec<Gives>,
    next: Vec<Vec<usize>>,
    ends: Vec<bool>,
}

/// The places of a part behind its first and its last bytes, and whether it has the empty text.
struct Ends {
    first: Vec<usize>,
    last: Vec<usize>,
    empty: bool,
}

impl Default for Reader {
    fn default() -> Reader {
        Reader::new()
    }
}

impl Reader {
    pub fn new() -> Reader {
        let mut reader = Reader {
            takes: vec![Set::EMPTY],
            gives: vec![Gives::Nothing],
            next: vec![Vec::new()],
            ends: Vec::new(),
        };
        let ends = reader.add(&subset());
        reader.join(&[0], &ends.first);
        reader.ends = vec![false; reader.takes.len()];
        ends.last.iter().for_each(|&place| reader.ends[place] = true);
        reader.ends[0] = ends.empty;
        reader
    }

    fn add(&mut self, part: &Part) -> Ends {
        match part {
            Part::Byte(set, gives) => self.add_byte(*set, *gives),
            Part::Row(parts) => self.add_row(parts),
            Part::Choice(parts) => self.add_choice(parts),
            Part::OneOrMore(part) => {
                let ends = self.add(part);
                self.join(&ends.last, &ends.first);
                ends
            }
        }
    }

    fn add_byte(&mut self, set: Set, gives: Gives) -> Ends {
        self.takes.push(set);
        self.gives.push(gives);
        self.next.push(Vec::new());
        let place = self.takes.len() - 1;
        Ends { first: vec![place], last: vec![place], empty: false }
    }

    fn add_row(&mut self, parts: &[Part]) -> Ends {
        let mut row = Ends { first: Vec::new(), last: Vec::new(), empty: true };
        for part in parts {
            let ends = self.add(part);
            self.join(&row.last, &ends.first);
            if row.empty {
                row.first.extend(&ends.first);
            }
            if !ends.empty {
                row.last.clear();
            }
            row.last.extend(&ends.last);
            row.empty &= ends.empty;
        }
        row
    }

    fn add_choice(&mut self, parts: &[Part]) -> Ends {
        let mut choice = Ends { first: Vec::new(), last: Vec::new(), empty: false };
        for part in parts {
            let ends = self.add(part);
            choice.first.extend(ends.first);
            choice.last.extend(ends.last);
            choice.empty |= ends.empty;
        }
        choice
    }

    fn join(&mut self, from: &[usize], to: &[usize]) {
        for &place in from {
            self.next[place].extend(to);
        }
    }

    /// The elements of a text, or the place of number 14.
    pub fn read(&self, text: &[u8]) -> Result<Vec<Leaf>, usize> {
        if text.len() > text_most() {
            let early = twisted(Twist::XmlLongTextJudged);
            let wrong = if early { self.carried(text).err() } else { None };
            return Err(wrong.map_or(TEXT_MOST, |place| place.min(TEXT_MOST)));
        }
        let carried = self.carried(text).map_err(|place| other_place(text, place))?;
        let end = carried[text.len()].iter().find(|&&place| self.ends[place]);
        let end =
            end.ok_or(if twisted(Twist::XmlEndPlacedBefore) { text.len().max(1) - 1 } else { text.len() })?;
        Ok(self.leaves(text, &self.way(&carried, *end)))
    }

    /// For each beginning of the text the places where it may end; or the byte that leaves none.
    fn carried(&self, text: &[u8]) -> Result<Vec<Vec<usize>>, usize> {
        let far = if twisted(Twist::XmlLimitInSubset) { self.bytes_to_end() } else { Vec::new() };
        let mut carried = vec![vec![0]];
        for (at, &byte) in text.iter().enumerate() {
            let places = carried[at].iter().flat_map(|&place| &self.next[place]);
            let mut places: Vec<usize> =
                places.copied().filter(|&place| self.takes[place].has(byte)).collect();
            if twisted(Twist::XmlLimitInSubset) {
                places.retain(|&place| at + 1 + far[place] <= TEXT_MOST);
            }
            if places.is_empty() {
                return Err(at);
            }
            places.sort_unstable();
            places.dedup();
            carried.push(places);
        }
        Ok(carried)
    }

    /// The places that the text goes through up to its end, one behind each byte.
    fn way(&self, carried: &[Vec<usize>], end: usize) -> Vec<usize> {
        let mut way = vec![end];
        for places in carried[1..carried.len().max(2) - 1].iter().rev() {
            let later = way[way.len() - 1];
            let earlier = places.iter().find(|&&place| self.next[place].contains(&later));
            way.push(*earlier.expect("a place is reached from an earlier one"));
        }
        way.reverse();
        way
    }

    fn leaves(&self, text: &[u8], way: &[usize]) -> Vec<Leaf> {
        let mut leaves: Vec<Leaf> = Vec::new();
        for (&byte, &place) in text.iter().zip(way) {
            let value = match self.gives[place] {
                Gives::Nothing => continue,
                Gives::Begin(element) => {
                    leaves.push(Leaf { element, value: Vec::new() });
                    continue;
                }
                Gives::Itself => byte,
                Gives::Stands(byte) => byte,
            };
            leaves.last_mut().expect("a value is inside an element").value.push(value);
        }
        leaves
    }

    /// The fewest bytes from each place to an end.
    fn bytes_to_end(&self) -> Vec<usize> {
        let mut far: Vec<usize> = self.ends.iter().map(|&ends| if ends { 0 } else { TEXT_MOST }).collect();
        loop {
            let before = far.clone();
            for place in (0..far.len()).rev() {
                let shortest = self.next[place].iter().map(|&next| far[next] + 1).min();
                far[place] = far[place].min(shortest.unwrap_or(TEXT_MOST));
            }
            if far == before {
                return far;
            }
        }
    }
}

/// Other ways to place a wrong byte.
fn other_place(text: &[u8], place: usize) -> usize {
    let tag = text[..=place].iter().rposition(|&byte| byte == b'<');
    let inside = tag.filter(|&tag| !text[tag..place].contains(&b'>'));
    match inside {
        Some(tag) if twisted(Twist::XmlPlacedAtTag) => tag,
        Some(tag) if twisted(Twist::XmlPlacedBehindTag) => tag + 1,
        _ => place,
    }
}
