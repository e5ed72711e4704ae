//! Runs the made cases against each twist and says which case tells it from the original. No case asks for operators' XML, so the
//! twists of that are told by its fixed texts.

use crate::case::{answer, Answer, Case};
use crate::maker::{self, texts::Fixed};
use crate::twist::{choose, Twist, ALL};
use crate::xml::{self, reader::Reader};
use std::panic::{self, AssertUnwindSafe};

/// Twists that change no answer, with the reason. A twist told in spite of standing here is
/// a failure too.
const SAME_ANSWERS: &[(Twist, &str)] = &[
    (
        Twist::CutBeforeReduced,
        "white space opens, closes and cuts nothing, and `\\` takes one byte of a run either way",
    ),
    (Twist::LongNamesInLowerCase, "on a name an element meets both forms of a letter or neither"),
];

/// Whether every twist is told, or named as changing no answer.
pub fn run(seed: u64, count: usize) -> bool {
    choose(None);
    let mut cases = maker::cases(seed, count);
    // Small cases first: most twists are told by one of them.
    cases.sort_by_key(|case| case.image.len() + case.request.len());
    let right: Vec<Answer> = cases.iter().map(answer).collect();
    let texts = texts();
    panic::set_hook(Box::new(|_| {}));
    let mut told = 0;
    let mut failed = 0;
    for &(twist, text) in ALL {
        let by = match of_xml(twist) {
            true => telling_text(twist, &texts).map(|text| format!("Xml, {}", shortened(&text.label))),
            false => telling(twist, &cases, &right)
                .map(|case| format!("{:?}, {}", case.call, shortened(&case.label))),
        };
        let same = SAME_ANSWERS.iter().find(|(listed, _)| *listed == twist);
        match (by, same) {
            (Some(by), None) => {
                told += 1;
                println!("told   {twist:?}: {text}; by {by}");
            }
            (None, Some((_, reason))) => println!("same   {twist:?}: {text}; {reason}"),
            (None, None) => {
                failed += 1;
                println!("MISSED {twist:?}: {text}");
            }
            (Some(_), Some(_)) => {
                failed += 1;
                println!("WRONG  {twist:?}: {text}; named as changing no answer, but told");
            }
        }
    }
    let _ = panic::take_hook();
    if !SAME_ANSWERS.is_empty() {
        println!("{} change no answer, as named above", SAME_ANSWERS.len());
    }
    println!("mutants: {told} of {} told", ALL.len() - SAME_ANSWERS.len());
    failed == 0
}

/// The first case the twisted program answers otherwise; a panic is another answer.
fn telling<'a>(twist: Twist, cases: &'a [Case], right: &[Answer]) -> Option<&'a Case> {
    choose(Some(twist));
    let differs = |case: &Case, right: &Answer| {
        let twisted = panic::catch_unwind(AssertUnwindSafe(|| answer(case)));
        twisted.map_or(true, |twisted| twisted != *right)
    };
    let found = cases.iter().zip(right).find(|(case, right)| differs(case, right)).map(|(case, _)| case);
    choose(None);
    found
}

pub fn of_xml(twist: Twist) -> bool {
    format!("{twist:?}").starts_with("Xml")
}

/// The fixed texts, short ones first.
pub fn texts() -> Vec<Fixed> {
    let mut texts = maker::texts::cases();
    texts.sort_by_key(|text| text.text.len());
    texts
}

/// The first text whose answer is not the one taken by hand.
pub fn telling_text(twist: Twist, texts: &[Fixed]) -> Option<&Fixed> {
    choose(Some(twist));
    let reader = Reader::new();
    let differs = |text: &&Fixed| {
        let given =
            panic::catch_unwind(AssertUnwindSafe(|| xml::answer(&reader, &text.text, &text.room_before())));
        given.map_or(true, |given| given != text.answer())
    };
    let found = texts.iter().find(differs);
    choose(None);
    found
}

fn shortened(label: &str) -> &str {
    let end = label.char_indices().nth(60).map_or(label.len(), |(end, _)| end);
    &label[..end]
}
