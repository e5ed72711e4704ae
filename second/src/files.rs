//! Case files and answer files; README.md has both formats.

use crate::case::{Answer, Call, Case, CALLS, RECORD};
use std::io::{self, Read, Write};

const CASES_MARK: &[u8; 4] = b"IFCC";
const ANSWERS_MARK: &[u8; 4] = b"IFCA";

pub(crate) fn write_number(out: &mut impl Write, number: u32) -> io::Result<()> {
    out.write_all(&number.to_be_bytes())
}

pub(crate) fn write_bytes(out: &mut impl Write, bytes: &[u8]) -> io::Result<()> {
    write_number(out, bytes.len() as u32)?;
    out.write_all(bytes)
}

fn write_numbers(out: &mut impl Write, numbers: &[u32]) -> io::Result<()> {
    write_number(out, numbers.len() as u32)?;
    numbers.iter().try_for_each(|&number| write_number(out, number))
}

pub fn write_cases(out: &mut impl Write, cases: &[Case]) -> io::Result<()> {
    out.write_all(CASES_MARK)?;
    write_number(out, cases.len() as u32)?;
    for case in cases {
        write_number(out, case.call as u32)?;
        write_bytes(out, case.label.as_bytes())?;
        write_bytes(out, &case.image)?;
        write_bytes(out, &case.request)?;
        write_bytes(out, &case.list)?;
        write_numbers(out, &case.numbers)?;
    }
    out.flush()
}

pub fn write_answers(out: &mut impl Write, answers: &[Answer]) -> io::Result<()> {
    out.write_all(ANSWERS_MARK)?;
    write_number(out, answers.len() as u32)?;
    for answer in answers {
        write_number(out, answer.number)?;
        write_bytes(out, &answer.list)?;
        write_numbers(out, &answer.numbers)?;
    }
    out.flush()
}

/// Reads from memory, so that a wrong length is an error and never a huge allocation.
pub(crate) struct Source<'a>(pub(crate) &'a [u8]);

pub(crate) type Parsed<T> = Result<T, String>;

impl<'a> Source<'a> {
    fn take(&mut self, count: usize) -> Parsed<&'a [u8]> {
        if count > self.0.len() {
            return Err(format!("the file ends {} bytes too early", count - self.0.len()));
        }
        let (taken, rest) = self.0.split_at(count);
        self.0 = rest;
        Ok(taken)
    }

    pub(crate) fn number(&mut self) -> Parsed<u32> {
        let bytes = self.take(4)?;
        Ok(bytes.iter().fold(0, |number, &byte| number << 8 | u32::from(byte)))
    }

    pub(crate) fn bytes(&mut self) -> Parsed<Vec<u8>> {
        let count = self.number()? as usize;
        Ok(self.take(count)?.to_vec())
    }

    fn numbers(&mut self) -> Parsed<Vec<u32>> {
        let count = self.number()?;
        (0..count).map(|_| self.number()).collect()
    }

    pub(crate) fn mark(&mut self, mark: &[u8; 4]) -> Parsed<u32> {
        if self.take(4)? != mark {
            return Err(format!("the file does not begin with {}", mark.escape_ascii()));
        }
        self.number()
    }

    pub(crate) fn ends(&self) -> Parsed<()> {
        match self.0.len() {
            0 => Ok(()),
            left => Err(format!("{left} bytes follow the last entry")),
        }
    }
}

pub fn read_cases(file: &mut impl Read) -> Parsed<Vec<Case>> {
    let mut bytes = Vec::new();
    file.read_to_end(&mut bytes).map_err(|error| error.to_string())?;
    let mut source = Source(&bytes);
    let count = source.mark(CASES_MARK)?;
    let cases = (0..count).map(|_| read_case(&mut source)).collect::<Parsed<Vec<Case>>>()?;
    source.ends()?;
    Ok(cases)
}

fn read_case(source: &mut Source) -> Parsed<Case> {
    let call = source.number()?;
    let case = Case {
        call: *CALLS.get(call as usize).ok_or(format!("there is no call {call}"))?,
        label: String::from_utf8_lossy(&source.bytes()?).into_owned(),
        image: source.bytes()?,
        request: source.bytes()?,
        list: source.bytes()?,
        numbers: source.numbers()?,
    };
    if case.numbers.len() != case.call.numbers().len() {
        return Err(format!("case {}: {} numbers", case.label, case.numbers.len()));
    }
    match case.call == Call::Reports && !lists_are_whole(&case) {
        true => Err(format!("case {}: lists of other lengths than its numbers say", case.label)),
        false => Ok(case),
    }
}

fn lists_are_whole(case: &Case) -> bool {
    let [sessions, reports, refusals] = [0, 1, 2].map(|place| case.numbers[place] as usize);
    case.request.len() == 4 * reports && case.list.len() == 4 * (RECORD * sessions + refusals)
}

pub fn read_answers(file: &mut impl Read) -> Parsed<Vec<Answer>> {
    let mut bytes = Vec::new();
    file.read_to_end(&mut bytes).map_err(|error| error.to_string())?;
    let mut source = Source(&bytes);
    let count = source.mark(ANSWERS_MARK)?;
    let read = |source: &mut Source| -> Parsed<Answer> {
        Ok(Answer { number: source.number()?, list: source.bytes()?, numbers: source.numbers()? })
    };
    let answers = (0..count).map(|_| read(&mut source)).collect::<Parsed<Vec<Answer>>>()?;
    source.ends()?;
    Ok(answers)
}
