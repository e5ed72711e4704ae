//! Judges one field after another and keeps what has been read.

use super::layout::Field;
use crate::profile::{Fault, Profile};
use crate::twist::{twisted, Twist};

/// "Absent", for Content and service information.
pub const ABSENT: u32 = 65_535;

pub struct Judge<'a> {
    pub image: &'a [u8],
    pub profile: Profile,
    /// The numbers of the record being read, in the order of its fields.
    pub record: Vec<u32>,
    pub record_place: usize,
    pub last_membership: Option<(u32, u32)>,
    /// Faults a twist keeps back, with the row they are of.
    pub later: Vec<(Fault, Option<usize>)>,
}

/// What a string may be used for.
#[derive(Clone, Copy, PartialEq, Eq)]
pub enum Use {
    RequestUri,
    Method,
    Pattern,
    Server,
    Information,
}

impl<'a> Judge<'a> {
    pub fn new(image: &'a [u8]) -> Judge<'a> {
        Judge {
            image,
            profile: Profile::default(),
            record: Vec::new(),
            record_place: 0,
            last_membership: None,
            later: Vec::new(),
        }
    }

    pub fn record_begins(&mut self, place: usize) {
        self.record.clear();
        self.record_place = place;
    }

    pub fn section_begins(&mut self) {
        self.record.clear();
    }

    pub fn judge(&mut self, field: Field, place: usize, value: u32) -> Result<(), Fault> {
        match field {
            Field::Edition => {
                let known = value == 1 || twisted(Twist::AnyEdition);
                range(known, place)
            }
            Field::StringCount | Field::StringLength | Field::StringBytes => {
                self.string_field(field, place, value)
            }
            Field::RowCount
            | Field::Negated
            | Field::Kind
            | Field::First
            | Field::Second
            | Field::RegistrationSet => self.row_field(field, place, value),
            Field::MembershipCount | Field::MembershipRow | Field::MembershipGroup => {
                self.membership_field(field, place, value)
            }
            _ => self.criterion_field(field, place, value),
        }
    }

    pub fn record_ends(&mut self) -> Result<(), Fault> {
        if twisted(Twist::WrongStringAfterRecord) || twisted(Twist::RepeatedPriorityAfterCriterion) {
            return self.first_later();
        }
        Ok(())
    }

    pub fn section_ends(&mut self, count: Field, place: usize) -> Result<(), Fault> {
        if count == Field::MembershipCount && !twisted(Twist::RowsJudgedAfterCriterionCount) {
            return self.rows_have_memberships(place);
        }
        Ok(())
    }

    /// Nothing is ever kept back without a twist.
    pub fn postponed(&mut self) -> Result<(), Fault> {
        if twisted(Twist::UnusedRowsFree) {
            let used: Vec<_> = self.profile.criteria.iter().map(|criterion| criterion.rows.clone()).collect();
            self.later.retain(|(_, row)| row.is_none_or(|row| used.iter().any(|rows| rows.contains(&row))));
        }
        self.first_later()
    }

    fn first_later(&mut self) -> Result<(), Fault> {
        self.later.first().map_or(Ok(()), |&(fault, _)| Err(fault))
    }

    /// An index outside the table is number 4, a string wrong for its use number 5, both at
    /// the field that names it.
    pub fn string(&mut self, index: u32, purpose: Use, place: usize) -> Result<(), Fault> {
        let Some(range) = self.profile.strings.get(index as usize).cloned() else {
            let number = if twisted(Twist::AbsentServerIsWrongString) && index == ABSENT { 5 } else { 4 };
            return Err(Fault { number, place });
        };
        if super::strings::right_for(&self.image[range], purpose) {
            return Ok(());
        }
        let fault = Fault { number: 5, place };
        let of_row = !matches!(purpose, Use::Server | Use::Information);
        let keep_back = twisted(Twist::WrongStringAfterRecord)
            || twisted(Twist::WrongStringInSecondPass)
            || twisted(Twist::UnusedRowsFree) && of_row;
        if keep_back {
            self.later.push((fault, of_row.then_some(self.profile.rows.len())));
            return Ok(());
        }
        Err(fault)
    }
}

/// Number 4 at the field unless it is in range.
pub fn range(right: bool, place: usize) -> Result<(), Fault> {
    if right {
        Ok(())
    } else {
        Err(Fault { number: 4, place })
    }
}
