//! An extended pattern read from its string, by descent: alternatives, rows, what is repeated, groups.

use super::{Alternative, Pattern, Row, Times, Tree};
use crate::bracket;
use crate::pattern::{dot, Set};
use std::rc::Rc;

/// Not ordinary outside lists, and what `\` may stand before.
pub const SPECIAL: &[u8; 12] = br"^.[$()|*+?{\";

/// "Groups nest at most 8 deep."
const DEEPEST: usize = 8;
/// "intervals up to 32"
const TIMES_MOST: usize = 32;
/// "At most 60 elements with intervals written out"
const ELEMENTS_MOST: usize = 60;

/// `None` is "Refused".
pub fn read(text: &[u8]) -> Option<Pattern> {
    let mut reader = Reader { text, next: 0, open: 0 };
    let mut alternatives = vec![reader.alternative()?];
    while reader.takes(b'|') {
        alternatives.push(reader.alternative()?);
    }
    let pattern = Pattern { alternatives };
    // What is left over is a `)` unpaired, a `^` not first or what a `$` not last stands before.
    let whole = reader.next == text.len();
    (whole && pattern.elements() <= ELEMENTS_MOST).then_some(pattern)
}

struct Reader<'a> {
    text: &'a [u8],
    next: usize,
    /// Groups that are open.
    open: usize,
}

impl Reader<'_> {
    fn ahead(&self) -> Option<u8> {
        self.text.get(self.next).copied()
    }

    fn takes(&mut self, byte: u8) -> bool {
        let there = self.ahead() == Some(byte);
        self.next += there as usize;
        there
    }

    /// "an anchor alone is not empty"
    fn alternative(&mut self) -> Option<Alternative> {
        let at_start = self.takes(b'^');
        let row = self.row()?;
        let at_end = self.takes(b'$');
        let empty = row.is_empty() && !at_start && !at_end;
        (!empty).then_some(Alternative { at_start, at_end, row })
    }

    /// Up to what can stand in no row. Anchors are left to the alternative outside groups: in a group there is none to take them.
    fn row(&mut self) -> Option<Row> {
        let mut row = Row::new();
        while !matches!(self.ahead(), None | Some(b'|' | b')' | b'^' | b'$')) {
            row.push(self.repeated()?);
        }
        Some(row)
    }

    /// "a repeat after a repeat" is refused.
    fn repeated(&mut self) -> Option<Tree> {
        let tree = self.single()?;
        if !self.at_repeat() {
            return Some(tree);
        }
        let times = self.times()?;
        (!self.at_repeat()).then(|| Tree::Repeat(Rc::new(tree), times))
    }

    /// A repeat "with nothing before it" is met here, as a special byte that begins nothing.
    fn single(&mut self) -> Option<Tree> {
        let byte = self.ahead()?;
        self.next += 1;
        match byte {
            b'(' => self.group(),
            b'[' => self.list(),
            b'\\' => self.pair(),
            b'.' => Some(Tree::Element(dot())),
            _ if SPECIAL.contains(&byte) => None,
            _ => Some(Tree::Element(Set::of(byte))),
        }
    }

    fn group(&mut self) -> Option<Tree> {
        if self.open == DEEPEST {
            return None;
        }
        self.open += 1;
        let mut rows = vec![self.filled_row()?];
        while self.takes(b'|') {
            rows.push(self.filled_row()?);
        }
        self.open -= 1;
        self.takes(b')').then(|| Tree::Group(rows.into()))
    }

    fn filled_row(&mut self) -> Option<Row> {
        self.row().filter(|row| !row.is_empty())
    }

    /// "Lists are as in edition 1".
    fn list(&mut self) -> Option<Tree> {
        let list = bracket::read(&self.text[self.next..])?;
        self.next += list.width;
        Some(Tree::Element(list.set))
    }

    fn pair(&mut self) -> Option<Tree> {
        let byte = self.ahead()?;
        self.next += 1;
        SPECIAL.contains(&byte).then(|| Tree::Element(Set::of(byte)))
    }

    fn at_repeat(&self) -> bool {
        matches!(self.ahead(), Some(b'*' | b'+' | b'?' | b'{'))
    }

    fn times(&mut self) -> Option<Times> {
        let byte = self.ahead()?;
        self.next += 1;
        match byte {
            b'*' => Some(Times { least: 0, most: None }),
            b'+' => Some(Times { least: 1, most: None }),
            b'?' => Some(Times { least: 0, most: Some(1) }),
            _ => self.interval(),
        }
    }

    /// `{m}`, `{m,}` or `{m,n}` after its `{`; another "begins no interval".
    fn interval(&mut self) -> Option<Times> {
        let least = self.number()?;
        let most = match self.takes(b',') {
            false => Some(least),
            true if self.ahead() == Some(b'}') => None,
            true => Some(self.number()?),
        };
        let falls = most.is_some_and(|most| most < least);
        (self.takes(b'}') && !falls).then_some(Times { least, most })
    }

    /// One or more decimal digits, judged by their value.
    fn number(&mut self) -> Option<usize> {
        let begin = self.next;
        let mut value: usize = 0;
        while let Some(digit @ b'0'..=b'9') = self.ahead() {
            value = value.saturating_mul(10).saturating_add((digit - b'0') as usize);
            self.next += 1;
        }
        (self.next > begin && value <= TIMES_MOST).then_some(value)
    }
}
