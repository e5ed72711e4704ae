//! Section three: memberships, and after it what every row must have.

use super::judge::{range, Judge};
use super::layout::Field;
use crate::profile::Fault;
use crate::twist::{twisted, Twist};

fn most_memberships() -> u32 {
    match () {
        _ if twisted(Twist::MembershipsAtMost16383) => 16_383,
        _ if twisted(Twist::MembershipsAtMost16385) => 16_385,
        _ => 16_384,
    }
}

fn most_of_a_row() -> usize {
    match () {
        _ if twisted(Twist::RowHasAtMost7) => 7,
        _ if twisted(Twist::RowHasAtMost9) => 9,
        _ => 8,
    }
}

impl Judge<'_> {
    pub fn membership_field(&mut self, field: Field, place: usize, value: u32) -> Result<(), Fault> {
        match field {
            Field::MembershipCount => range(value <= most_memberships(), place)?,
            Field::MembershipRow => self.membership_row(value, place)?,
            _ => self.membership_group(value, place)?,
        }
        self.record.push(value);
        Ok(())
    }

    fn membership_row(&mut self, row: u32, place: usize) -> Result<(), Fault> {
        if twisted(Twist::OrderMetAtRow) && self.last_membership.is_some_and(|(last, _)| row < last) {
            return range(false, place);
        }
        let inside = (row as usize) < self.profile.rows.len();
        range(inside || twisted(Twist::RowOutsideMetAtGroup), place)
    }

    /// "Strictly rising by row and then group"; "placed at its first byte and met at its
    /// group".
    fn membership_group(&mut self, group: u32, place: usize) -> Result<(), Fault> {
        let row = self.record[0];
        range((row as usize) < self.profile.rows.len(), self.record_place)?;
        let rising = self.last_membership.is_none_or(|last| rises(last, (row, group)));
        let order_place = if twisted(Twist::OrderPlacedAtGroup) { place } else { self.record_place };
        range(rising, order_place)?;
        self.last_membership = Some((row, group));
        let groups = &mut self.profile.rows[row as usize].groups;
        groups.push(group);
        let ninth = groups.len() > most_of_a_row();
        if twisted(Twist::NinthMetAtMembership) && ninth {
            let place = self.profile.rows[row as usize].place;
            return range(false, place);
        }
        Ok(())
    }

    /// "A row lacking memberships, or with a ninth, is met after section three, at the row."
    pub fn rows_have_memberships(&self, section_end: usize) -> Result<(), Fault> {
        if twisted(Twist::LackingBeforeNinth) {
            let lacking = self.profile.rows.iter().find(|row| row.groups.is_empty());
            range(lacking.is_none(), lacking.map_or(0, |row| row.place))?;
        }
        for row in &self.profile.rows {
            let lacking = row.groups.is_empty() && !twisted(Twist::RowMayLackMembership);
            let right = !lacking && row.groups.len() <= most_of_a_row();
            let place = if twisted(Twist::RowFaultPlacedAtSectionEnd) { section_end } else { row.place };
            range(right, place)?;
        }
        Ok(())
    }
}

fn rises(last: (u32, u32), next: (u32, u32)) -> bool {
    match () {
        _ if twisted(Twist::EqualMembershipsAccepted) => next >= last,
        _ if twisted(Twist::GroupsMayFall) => next.0 >= last.0 && next != last,
        _ if twisted(Twist::RowsMayFall) => next != last,
        _ => next > last,
    }
}
