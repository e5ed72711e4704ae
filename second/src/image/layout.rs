//! The house format as a table: four sections, each a count and records of fields.

#[derive(Clone, Copy, PartialEq, Eq, Debug)]
pub enum Field {
    Edition,
    StringCount,
    StringLength,
    StringBytes,
    RowCount,
    Negated,
    Kind,
    First,
    Second,
    RegistrationSet,
    MembershipCount,
    MembershipRow,
    MembershipGroup,
    CriterionCount,
    Priority,
    Part,
    Form,
    FirstRow,
    TriggerRows,
    Server,
    DefaultHandling,
    Information,
}

#[derive(Clone, Copy)]
pub enum Width {
    Bytes(usize),
    /// As many bytes as the number just read.
    AsJustRead,
}

pub struct Section {
    pub count: Field,
    pub record: &'static [(Field, Width)],
}

impl Section {
    /// The least width of a record.
    pub fn width(&self) -> usize {
        let widths = self.record.iter().map(|&(_, width)| match width {
            Width::Bytes(width) => width,
            Width::AsJustRead => 0,
        });
        widths.sum()
    }
}

pub const SECTIONS: [Section; 4] = [
    Section {
        count: Field::StringCount,
        record: &[(Field::StringLength, Width::Bytes(2)), (Field::StringBytes, Width::AsJustRead)],
    },
    Section {
        count: Field::RowCount,
        record: &[
            (Field::Negated, Width::Bytes(1)),
            (Field::Kind, Width::Bytes(1)),
            (Field::First, Width::Bytes(2)),
            (Field::Second, Width::Bytes(2)),
            (Field::RegistrationSet, Width::Bytes(1)),
        ],
    },
    Section {
        count: Field::MembershipCount,
        record: &[(Field::MembershipRow, Width::Bytes(2)), (Field::MembershipGroup, Width::Bytes(2))],
    },
    Section {
        count: Field::CriterionCount,
        record: &[
            (Field::Priority, Width::Bytes(4)),
            (Field::Part, Width::Bytes(1)),
            (Field::Form, Width::Bytes(1)),
            (Field::FirstRow, Width::Bytes(2)),
            (Field::TriggerRows, Width::Bytes(2)),
            (Field::Server, Width::Bytes(2)),
            (Field::DefaultHandling, Width::Bytes(1)),
            (Field::Information, Width::Bytes(2)),
        ],
    },
];
