//! Section two: trigger rows.

use super::judge::{range, Judge, Use, ABSENT};
use super::layout::Field;
use crate::pattern;
use crate::profile::{Fault, Row, Test};
use crate::twist::{twisted, Twist};

fn most_rows() -> u32 {
    match () {
        _ if twisted(Twist::RowsAtMost2047) => 2_047,
        _ if twisted(Twist::RowsAtMost2049) => 2_049,
        _ => 2_048,
    }
}

fn highest_case() -> u32 {
    match () {
        _ if twisted(Twist::RowCaseAtMost2) => 2,
        _ if twisted(Twist::RowCaseAtMost4) => 4,
        _ => 3,
    }
}

impl Judge<'_> {
    pub fn row_field(&mut self, field: Field, place: usize, value: u32) -> Result<(), Fault> {
        let kind = self.record.get(1).copied().unwrap_or(0);
        match field {
            Field::RowCount => range(value <= most_rows(), place)?,
            Field::Negated => range(value <= if twisted(Twist::NegatedUpTo2) { 2 } else { 1 }, place)?,
            Field::Kind => range(value <= if twisted(Twist::KindUpTo5) { 5 } else { 4 }, place)?,
            Field::First => self.first(kind, value, place)?,
            Field::Second => self.second(kind, value, place)?,
            _ => range(value <= self.highest_set(kind), place)?,
        }
        self.record.push(value);
        if field == Field::RegistrationSet {
            let row = self.row();
            self.profile.rows.push(row);
        }
        Ok(())
    }

    /// "0..6": "at most two" of the three bits.
    fn highest_set(&self, kind: u32) -> u32 {
        let free = twisted(Twist::SetOfSeven) || twisted(Twist::SetFreeButForMethod) && kind != 1;
        match () {
            _ if twisted(Twist::SetAtMost5) => 5,
            _ if free => 7,
            _ => 6,
        }
    }

    fn first(&mut self, kind: u32, value: u32, place: usize) -> Result<(), Fault> {
        match kind {
            0 => self.string(value, Use::RequestUri, place),
            1 => self.string(value, Use::Method, place),
            3 => range(value <= highest_case(), place),
            _ => self.string(value, Use::Pattern, place),
        }
    }

    fn second(&mut self, kind: u32, value: u32, place: usize) -> Result<(), Fault> {
        let content = matches!(kind, 2 | 4);
        if value == ABSENT {
            return range(!(twisted(Twist::ContentNeverAbsent) && content), place);
        }
        if content {
            return self.string(value, Use::Pattern, place);
        }
        let index = (value as usize) < self.profile.strings.len();
        range(twisted(Twist::ContentIndexFreeElsewhere) && index, place)
    }

    fn text(&self, index: u32) -> Vec<u8> {
        self.profile
            .strings
            .get(index as usize)
            .map_or(Vec::new(), |range| self.image[range.clone()].to_vec())
    }

    fn row(&self) -> Row {
        let [negated, kind, first, second, registration_set] = self.record[..] else {
            unreachable!("a row has five fields")
        };
        let pattern = |index| pattern::read(&self.text(index)).unwrap_or_default();
        let content = (second != ABSENT).then(|| pattern(second));
        let test = match kind {
            0 => Test::RequestUri(self.text(first)),
            1 => Test::Method(self.text(first)),
            2 => Test::SipHeader { name: pattern(first), content },
            3 => Test::SessionCase(first),
            _ => Test::SessionDescription { line: pattern(first), content },
        };
        Row { negated: negated != 0, test, registration_set, groups: Vec::new(), place: self.record_place }
    }
}
