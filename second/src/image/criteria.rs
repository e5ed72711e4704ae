//! Section four: criteria.

use super::judge::{range, Judge, Use, ABSENT};
use super::layout::Field;
use crate::profile::{Criterion, Fault, Form};
use crate::twist::{twisted, Twist};

fn most_criteria() -> u32 {
    match () {
        _ if twisted(Twist::CriteriaAtMost63) => 63,
        _ if twisted(Twist::CriteriaAtMost65) => 65,
        _ => 64,
    }
}

fn most_trigger_rows() -> u32 {
    match () {
        _ if twisted(Twist::TriggerAtMost31) => 31,
        _ if twisted(Twist::TriggerAtMost33) => 33,
        _ => 32,
    }
}

const NO_TRIGGER: u32 = 2;

impl Judge<'_> {
    pub fn criterion_field(&mut self, field: Field, place: usize, value: u32) -> Result<(), Fault> {
        match field {
            Field::CriterionCount => self.criterion_count(value, place)?,
            Field::Priority => self.priority(value, place)?,
            Field::Part => range(value <= if twisted(Twist::PartNeverAbsent) { 1 } else { 2 }, place)?,
            Field::Form => range(value <= if twisted(Twist::TriggerNeverAbsent) { 1 } else { 2 }, place)?,
            Field::FirstRow => self.first_row(value, place)?,
            Field::TriggerRows => self.trigger_rows(value, place)?,
            Field::Server => self.string(value, Use::Server, place)?,
            Field::DefaultHandling => {
                let most = if twisted(Twist::HandlingNeverAbsent) { 1 } else { 2 };
                range(value <= most, place)?;
            }
            _ => self.information(value, place)?,
        }
        self.record.push(value);
        if field == Field::Information {
            let criterion = self.criterion();
            self.profile.criteria.push(criterion);
        }
        Ok(())
    }

    fn criterion_count(&mut self, value: u32, place: usize) -> Result<(), Fault> {
        range(value <= most_criteria(), place)?;
        if twisted(Twist::RowsJudgedAfterCriterionCount) {
            return self.rows_have_memberships(place);
        }
        Ok(())
    }

    /// "Number 6 is placed at the first criterion whose number stands earlier too, and met
    /// when that number is read."
    fn priority(&mut self, priority: u32, place: usize) -> Result<(), Fault> {
        let earlier = self.profile.criteria.iter().position(|criterion| criterion.priority == priority);
        let Some(earlier) = earlier else { return Ok(()) };
        let distance = (self.profile.criteria.len() - earlier) * 15;
        let place = if twisted(Twist::RepeatedPriorityPlacedAtEarlier) { place - distance } else { place };
        let fault = Fault { number: 6, place };
        if twisted(Twist::RepeatedPriorityAfterCriterion) || twisted(Twist::RepeatedPriorityAfterAll) {
            self.later.push((fault, None));
            return Ok(());
        }
        Err(fault)
    }

    fn first_row(&mut self, value: u32, place: usize) -> Result<(), Fault> {
        if self.record[2] == NO_TRIGGER {
            return range(value == 0 || twisted(Twist::NoTriggerFirstRowFree), place);
        }
        let inside = (value as usize) < self.profile.rows.len();
        range(inside || !twisted(Twist::FirstRowJudgedAtItself), place)
    }

    /// "Otherwise the count is 1..32 and the rows lie in the table"; "rows outside the table
    /// at the row count".
    fn trigger_rows(&mut self, count: u32, place: usize) -> Result<(), Fault> {
        if self.record[2] == NO_TRIGGER {
            return range(count == 0 || twisted(Twist::NoTriggerRowCountFree), place);
        }
        let least = if twisted(Twist::TriggerMayBeEmpty) { 0 } else { 1 };
        range((least..=most_trigger_rows()).contains(&count), place)?;
        let end = self.record[3] + count;
        let end = if twisted(Twist::RowSumWraps) { end & 0xFFFF } else { end };
        range(end as usize <= self.profile.rows.len(), place)
    }

    fn information(&mut self, value: u32, place: usize) -> Result<(), Fault> {
        if value == ABSENT {
            return Ok(());
        }
        self.string(value, Use::Information, place)
    }

    fn criterion(&self) -> Criterion {
        let [priority, part, form, first_row, count, server, default_handling, information] = self.record[..]
        else {
            unreachable!("a criterion has eight fields")
        };
        let string = |index: u32| self.profile.strings[index as usize].clone();
        let first_row = first_row as usize;
        Criterion {
            priority,
            part,
            form: match form {
                0 => Form::Dnf,
                1 => Form::Cnf,
                _ => Form::NoTrigger,
            },
            rows: first_row..first_row + count as usize,
            server: string(server),
            default_handling,
            information: (information != ABSENT).then(|| string(information)),
        }
    }
}
