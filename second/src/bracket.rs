//! A bracket list, read from the left after its opening `[`.

use crate::pattern::Set;
use crate::twist::{twisted, Twist};

pub struct List {
    pub set: Set,
    pub negated: bool,
    /// Bytes taken, the closing `]` with them.
    pub width: usize,
}

pub fn read(text: &[u8]) -> Option<List> {
    if twisted(Twist::OpeningBracketJudged) && is_named_class(b'[', text.first().copied()) {
        return None;
    }
    let negated = text.first() == Some(&b'^') && !twisted(Twist::ListCaretOrdinary);
    let start = negated as usize;
    let mut items = Items { text, start, next: start, set: Set::EMPTY, after_range: false };
    while !items.closed()? {
        items.item()?;
    }
    let mut set = items.set;
    if twisted(Twist::PlainListNeverMeetsZero) {
        set.remove(0);
    }
    if negated {
        set = set.complement();
        if !twisted(Twist::NegatedListMeetsZero) {
            set.remove(0);
        }
    }
    Some(List { set, negated, width: items.next + 1 })
}

/// `[.` `[=` `[:` open what POSIX names; none of it is supported.
fn is_named_class(byte: u8, after: Option<u8>) -> bool {
    byte == b'[' && matches!(after, Some(b'.' | b'=' | b':'))
}

struct Items<'a> {
    text: &'a [u8],
    start: usize,
    next: usize,
    set: Set,
    /// The item before was a range.
    after_range: bool,
}

impl Items<'_> {
    fn at(&self, ahead: usize) -> Option<u8> {
        self.text.get(self.next + ahead).copied()
    }

    fn first(&self) -> bool {
        self.next == self.start
    }

    /// `None` when the list is not closed.
    fn closed(&self) -> Option<bool> {
        let Some(byte) = self.at(0) else {
            return if twisted(Twist::UnclosedListAccepted) && !self.first() { Some(true) } else { None };
        };
        let ordinary = self.first() && !twisted(Twist::FirstCloseCloses);
        Some(byte == b']' && !ordinary)
    }

    fn refused_class(&self, ahead: usize) -> bool {
        let (Some(byte), after) = (self.at(ahead), self.at(ahead + 1)) else { return false };
        if twisted(Twist::ClassRefusedOnlyIfClosed) {
            let rest = &self.text[self.next + ahead..];
            let closing = [after.unwrap_or(0), b']'];
            return is_named_class(byte, after) && rest[2..].windows(2).any(|pair| pair == closing);
        }
        is_named_class(byte, after)
    }

    fn item(&mut self) -> Option<()> {
        let byte = self.at(0)?;
        if twisted(Twist::ListBackslashPairs) && byte == b'\\' {
            self.set.add(self.at(1)?);
            self.next += 2;
            return Some(());
        }
        if self.refused_class(0) || byte == b'-' && self.dash_misplaced() {
            return None;
        }
        match self.range_end() {
            Some(end) => self.range(byte, end),
            None => {
                self.set.add(byte);
                self.next += 1;
                self.after_range = false;
                Some(())
            }
        }
    }

    /// "`-` when first or last" is ordinary and "a first `-` may begin a range"; no other may.
    fn dash_misplaced(&self) -> bool {
        let last = self.at(1) == Some(b']');
        if twisted(Twist::LastDashAfterRangeRefused) && last && self.after_range {
            return true;
        }
        if twisted(Twist::DashAfterRangeOrdinary) && self.range_end().is_none() {
            return false;
        }
        if twisted(Twist::DashAfterRangeBegins) && self.range_end().is_some() {
            return false;
        }
        if twisted(Twist::DoubleDashListRefused) && last && self.next == self.start + 1 {
            return self.text[self.start] == b'-';
        }
        !self.first() && !last
    }

    /// The end of the range that begins here. A `-` straight before `]` is never the
    /// operator.
    fn range_end(&self) -> Option<u8> {
        if self.at(1) != Some(b'-') {
            return None;
        }
        if twisted(Twist::FirstDashBeginsNone) && self.at(0) == Some(b'-') {
            return None;
        }
        if twisted(Twist::FirstCloseBeginsNone) && self.at(0) == Some(b']') {
            return None;
        }
        match self.at(2)? {
            b']' if !(twisted(Twist::CloseEndsRange) && self.at(3) == Some(b']')) => None,
            b'-' if twisted(Twist::DashEndsNone) => None,
            end => Some(end),
        }
    }

    fn range(&mut self, begin: u8, end: u8) -> Option<()> {
        if self.refused_class(2) && !twisted(Twist::ClassAsRangeEndAccepted) {
            return None;
        }
        if end < begin && !twisted(Twist::FallingRangeEmpty) {
            return None;
        }
        if twisted(Twist::SameEndsRefused) && end == begin {
            return None;
        }
        if twisted(Twist::OverlapRefused) && self.set.has(begin) {
            return None;
        }
        let end = if twisted(Twist::RangeLacksItsEnd) { end.saturating_sub(1) } else { end };
        (begin..=end).for_each(|byte| self.set.add(byte));
        self.next += 3;
        self.after_range = true;
        Some(())
    }
}
