//! A pattern read from its string: elements from the left, two flags for the anchors.

use crate::bracket;
use crate::twist::{twisted, Twist};

/// A set of the 256 bytes.
#[derive(Clone, Copy, PartialEq, Eq, Hash, Debug)]
pub struct Set([u64; 4]);

impl Set {
    pub const EMPTY: Set = Set([0; 4]);

    pub fn of(byte: u8) -> Set {
        let mut set = Set::EMPTY;
        set.add(byte);
        set
    }

    pub fn add(&mut self, byte: u8) {
        self.0[byte as usize / 64] |= 1 << (byte % 64);
    }

    pub fn remove(&mut self, byte: u8) {
        self.0[byte as usize / 64] &= !(1 << (byte % 64));
    }

    pub fn has(&self, byte: u8) -> bool {
        self.0[byte as usize / 64] >> (byte % 64) & 1 == 1
    }

    pub fn complement(&self) -> Set {
        Set(self.0.map(|word| !word))
    }
}

#[derive(Clone, Copy, PartialEq, Eq, Debug)]
pub struct Element {
    pub set: Set,
    /// From a `^` list; `set` is already the complement. Only a twist asks.
    pub negated: bool,
    pub repeats: bool,
}

#[derive(Clone, Default, PartialEq, Eq, Debug)]
pub struct Pattern {
    pub at_start: bool,
    pub at_end: bool,
    pub elements: Vec<Element>,
}

/// Bytes that `\` may stand before.
const PAIRED: &[u8] = br".[\*^$";

fn most_elements() -> usize {
    match () {
        _ if twisted(Twist::ElementsAtMost59) => 59,
        _ if twisted(Twist::ElementsAtMost61) => 61,
        _ => 60,
    }
}

/// `None` is "not supported, so refused".
pub fn read(text: &[u8]) -> Option<Pattern> {
    if text.is_empty() && !twisted(Twist::EmptyPatternAccepted) {
        return None;
    }
    let mut reading = Reading { text, ..Reading::default() };
    reading.leading_anchor();
    while reading.next < text.len() {
        reading.step()?;
    }
    if reading.counted() > most_elements() {
        return None;
    }
    if twisted(Twist::AnchorAloneRefused) && reading.pattern.elements.is_empty() {
        return None;
    }
    Some(reading.pattern)
}

#[derive(Default)]
struct Reading<'a> {
    text: &'a [u8],
    next: usize,
    pattern: Pattern,
    /// The byte just read was a repeating `*`.
    after_repeat: bool,
    stars: usize,
    ordinary_stars: usize,
}

impl Reading<'_> {
    fn leading_anchor(&mut self) {
        if self.text.first() == Some(&b'^') {
            self.pattern.at_start = true;
            self.next = 1;
        }
    }

    fn counted(&self) -> usize {
        let mut count = self.pattern.elements.len();
        if twisted(Twist::RepeatCountsAsElement) {
            count += self.stars;
        }
        if twisted(Twist::OrdinaryStarNotCounted) {
            count -= self.ordinary_stars;
        }
        if twisted(Twist::AnchorsCount) {
            count += self.pattern.at_start as usize + self.pattern.at_end as usize;
        }
        count
    }

    fn add(&mut self, set: Set, negated: bool, width: usize) -> Option<()> {
        self.pattern.elements.push(Element { set, negated, repeats: false });
        self.next += width;
        self.after_repeat = false;
        Some(())
    }

    fn step(&mut self) -> Option<()> {
        let byte = self.text[self.next];
        match byte {
            b'$' if self.is_last_dollar() => self.trailing_anchor(),
            b'\\' => self.pair(),
            b'[' => {
                let list = bracket::read(&self.text[self.next + 1..])?;
                self.add(list.set, list.negated, list.width + 1)
            }
            b'.' => self.add(dot(), false, 1),
            b'*' => self.star(),
            _ => self.ordinary(byte),
        }
    }

    fn is_last_dollar(&self) -> bool {
        let alone = self.next == 0 && twisted(Twist::DollarAloneOrdinary);
        self.next + 1 == self.text.len() && !alone
    }

    fn trailing_anchor(&mut self) -> Option<()> {
        self.pattern.at_end = true;
        self.next += 1;
        Some(())
    }

    fn ordinary(&mut self, byte: u8) -> Option<()> {
        let refused = twisted(Twist::HighByteRefused) && byte >= 128
            || twisted(Twist::PlusRefused) && byte == b'+'
            || twisted(Twist::LoneCloseRefused) && byte == b']'
            || twisted(Twist::SecondCaretRefused) && byte == b'^'
            || twisted(Twist::InnerDollarRefused) && byte == b'$';
        if refused {
            return None;
        }
        let mut set = Set::of(byte);
        if twisted(Twist::OrdinaryNeverMeetsZero) {
            set.remove(0);
        }
        self.add(set, false, 1)
    }

    fn pair(&mut self) -> Option<()> {
        let Some(&byte) = self.text.get(self.next + 1) else {
            return match twisted(Twist::FinalBackslashOrdinary) {
                true => self.add(Set::of(b'\\'), false, 1),
                false => None,
            };
        };
        if twisted(Twist::PairedDollarAnchors) && self.next + 2 == self.text.len() && byte == b'$' {
            self.pattern.at_end = true;
            self.next += 2;
            return Some(());
        }
        let allowed = PAIRED.contains(&byte) && !(twisted(Twist::PairedCaretRefused) && byte == b'^')
            || twisted(Twist::PairedCloseAccepted) && byte == b']'
            || twisted(Twist::PairedParenthesisAccepted) && (byte == b'(' || byte == b')')
            || twisted(Twist::PairedBraceAccepted) && (byte == b'{' || byte == b'}')
            || twisted(Twist::PairedDigitAccepted) && byte.is_ascii_digit()
            || twisted(Twist::PairedLetterAccepted) && byte.is_ascii_alphabetic()
            || twisted(Twist::PairedHighAccepted) && byte >= 128;
        if !allowed {
            return None;
        }
        self.add(Set::of(byte), false, 2)
    }

    /// "`*` first, or right after the leading `^`, is ordinary."
    fn star(&mut self) -> Option<()> {
        if self.pattern.elements.is_empty() {
            let after_caret = self.pattern.at_start;
            if twisted(Twist::StarFirstRefused) && !after_caret
                || twisted(Twist::StarAfterCaretRefused) && after_caret
            {
                return None;
            }
            self.ordinary_stars += 1;
            self.add(Set::of(b'*'), false, 1)?;
            self.after_repeat = twisted(Twist::StarOnOrdinaryStarRefused);
            return Some(());
        }
        if self.after_repeat && !twisted(Twist::DoubleRepeatAccepted) {
            return None;
        }
        let last = self.pattern.elements.len() - 1;
        if twisted(Twist::OrdinaryDollarNotRepeated) && self.text[self.next - 1] == b'$' {
            return None;
        }
        self.pattern.elements[last].repeats = true;
        self.after_repeat = true;
        self.stars += 1;
        self.next += 1;
        Some(())
    }
}

/// "`.` and a `^` list never meet byte 0."
pub fn dot() -> Set {
    let mut set = Set::EMPTY.complement();
    if !twisted(Twist::DotMeetsZero) {
        set.remove(0);
    }
    if twisted(Twist::DotNeverMeetsHigh) {
        (128..=255).for_each(|byte| set.remove(byte));
    }
    if twisted(Twist::DotNeverMeetsCr) {
        set.remove(b'\r');
    }
    set
}
