//! An image before it is written: every field explicit, so that each can be wrong.

pub const ABSENT: u16 = 65_535;

#[derive(Clone, Copy, Debug)]
pub struct RowDraft {
    pub negated: u8,
    pub kind: u8,
    pub first: u16,
    pub second: u16,
    pub set: u8,
}

#[derive(Clone, Copy, Debug)]
pub struct CriterionDraft {
    pub priority: u32,
    pub part: u8,
    pub form: u8,
    pub first_row: u16,
    pub row_count: u16,
    pub server: u16,
    pub handling: u8,
    pub information: u16,
}

#[derive(Clone, Debug)]
pub struct Draft {
    pub edition: u8,
    pub strings: Vec<Vec<u8>>,
    pub rows: Vec<RowDraft>,
    pub memberships: Vec<(u16, u16)>,
    pub criteria: Vec<CriterionDraft>,
    /// Counts written in place of the true ones, by section.
    pub counts: [Option<u16>; 4],
    /// Lengths written in place of the true ones: string, length.
    pub lengths: Vec<(usize, u16)>,
    pub tail: Vec<u8>,
    pub cut: Option<usize>,
}

pub const DNF: u8 = 0;
pub const CNF: u8 = 1;
pub const NO_TRIGGER: u8 = 2;

impl Draft {
    /// String 0 is the server `sip:a`.
    pub fn new() -> Draft {
        Draft {
            edition: 1,
            strings: vec![b"sip:a".to_vec()],
            rows: Vec::new(),
            memberships: Vec::new(),
            criteria: Vec::new(),
            counts: [None; 4],
            lengths: Vec::new(),
            tail: Vec::new(),
            cut: None,
        }
    }

    pub fn string(&mut self, bytes: &[u8]) -> u16 {
        let known = self.strings.iter().position(|string| string == bytes);
        known.unwrap_or_else(|| {
            self.strings.push(bytes.to_vec());
            self.strings.len() - 1
        }) as u16
    }

    /// A row of kind 0, 1, 2 or 4, not negated.
    pub fn text_row(&mut self, kind: u8, first: &[u8], second: Option<&[u8]>) -> RowDraft {
        let first = self.string(first);
        let second = second.map_or(ABSENT, |content| self.string(content));
        RowDraft { negated: 0, kind, first, second, set: 0 }
    }

    /// Adds the row at the end of the table, in these groups.
    pub fn add_row(&mut self, row: RowDraft, groups: &[u16]) {
        let number = self.rows.len() as u16;
        self.rows.push(row);
        self.memberships.extend(groups.iter().map(|&group| (number, group)));
    }

    /// A criterion on the last `rows` rows of the table; no trigger if 0.
    pub fn criterion(&mut self, priority: u32, form: u8, rows: usize) -> &mut CriterionDraft {
        let form = if rows == 0 { NO_TRIGGER } else { form };
        let first_row = if rows == 0 { 0 } else { (self.rows.len() - rows) as u16 };
        self.criteria.push(CriterionDraft {
            priority,
            part: 2,
            form,
            first_row,
            row_count: rows as u16,
            server: 0,
            handling: 0,
            information: ABSENT,
        });
        self.criteria.last_mut().expect("just pushed")
    }

    /// A criterion of one row.
    pub fn single(&mut self, priority: u32, row: RowDraft) {
        self.add_row(row, &[0]);
        self.criterion(priority, DNF, 1);
    }

    pub fn string_place(&self, number: usize) -> usize {
        3 + self.strings[..number].iter().map(|string| 2 + string.len()).sum::<usize>()
    }

    pub fn row_count_place(&self) -> usize {
        self.string_place(self.strings.len())
    }

    pub fn row_place(&self, number: usize) -> usize {
        self.row_count_place() + 2 + 7 * number
    }

    pub fn membership_count_place(&self) -> usize {
        self.row_place(self.rows.len())
    }

    pub fn membership_place(&self, number: usize) -> usize {
        self.membership_count_place() + 2 + 4 * number
    }

    pub fn criterion_count_place(&self) -> usize {
        self.membership_place(self.memberships.len())
    }

    pub fn criterion_place(&self, number: usize) -> usize {
        self.criterion_count_place() + 2 + 15 * number
    }

    pub fn end(&self) -> usize {
        self.criterion_place(self.criteria.len())
    }

    pub fn bytes(&self) -> Vec<u8> {
        let mut out = vec![self.edition];
        self.write_strings(&mut out);
        self.write_rows(&mut out);
        self.write_memberships(&mut out);
        self.write_criteria(&mut out);
        out.extend(&self.tail);
        if let Some(cut) = self.cut {
            out.truncate(cut);
        }
        out
    }

    fn write_count(&self, out: &mut Vec<u8>, section: usize, count: usize) {
        out.extend(self.counts[section].unwrap_or(count as u16).to_be_bytes());
    }

    fn write_strings(&self, out: &mut Vec<u8>) {
        self.write_count(out, 0, self.strings.len());
        for (number, string) in self.strings.iter().enumerate() {
            let written = self.lengths.iter().find(|&&(which, _)| which == number);
            let length = written.map_or(string.len() as u16, |&(_, length)| length);
            out.extend(length.to_be_bytes());
            out.extend(string);
        }
    }

    fn write_rows(&self, out: &mut Vec<u8>) {
        self.write_count(out, 1, self.rows.len());
        for row in &self.rows {
            out.extend([row.negated, row.kind]);
            out.extend(row.first.to_be_bytes());
            out.extend(row.second.to_be_bytes());
            out.push(row.set);
        }
    }

    fn write_memberships(&self, out: &mut Vec<u8>) {
        self.write_count(out, 2, self.memberships.len());
        for (row, group) in &self.memberships {
            out.extend(row.to_be_bytes());
            out.extend(group.to_be_bytes());
        }
    }

    fn write_criteria(&self, out: &mut Vec<u8>) {
        self.write_count(out, 3, self.criteria.len());
        for criterion in &self.criteria {
            out.extend(criterion.priority.to_be_bytes());
            out.extend([criterion.part, criterion.form]);
            out.extend(criterion.first_row.to_be_bytes());
            out.extend(criterion.row_count.to_be_bytes());
            out.extend(criterion.server.to_be_bytes());
            out.push(criterion.handling);
            out.extend(criterion.information.to_be_bytes());
        }
    }
}

impl Default for Draft {
    fn default() -> Draft {
        Draft::new()
    }
}

pub fn case_row(case: u16) -> RowDraft {
    RowDraft { negated: 0, kind: 3, first: case, second: ABSENT, set: 0 }
}

pub fn negated(row: RowDraft) -> RowDraft {
    RowDraft { negated: 1, ..row }
}

pub fn with_set(row: RowDraft, set: u8) -> RowDraft {
    RowDraft { set, ..row }
}
