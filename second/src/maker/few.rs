//! A part of the made cases, small enough to be kept as a file: the shortest of each kind, so that none is
//! missing, and every so many of those that are not long. Those of show, plain and reports in bulk are not among them:
//! crates/vectors does not run these.

use super::cases;
use crate::case::{answer, Call, Case};
use std::collections::{BTreeMap, BTreeSet};

/// The call, its refusal number, and what else tells its answers apart.
type Kind = (u32, u32, u32);

fn kind(case: &Case) -> Kind {
    let answer = answer(case);
    let which = match case.call {
        // how it goes on, and whether anything was forwarded before
        Call::Advance => 2 * answer.numbers[6] + case.numbers[2].min(1),
        // none, one or more of them
        Call::List => answer.numbers[3].min(2),
        Call::Information => answer.numbers[2],
        Call::Report => answer.numbers[1].min(5),
        Call::Check | Call::Open | Call::Server | Call::Show | Call::Reports | Call::Plain => 0,
    };
    (case.call as u32, answer.number, which)
}

fn size(case: &Case) -> usize {
    case.image.len() + case.request.len() + case.list.len()
}

/// Of all fixed cases and `count` random ones: the shortest of each kind, and each `every`-th of those with at
/// most `most` bytes.
pub fn few(seed: u64, count: usize, every: usize, most: usize) -> Vec<Case> {
    let mut cases = cases(seed, count);
    cases.retain(|case| !matches!(case.call, Call::Show | Call::Reports | Call::Plain));
    let mut shortest: BTreeMap<Kind, usize> = BTreeMap::new();
    for (place, case) in cases.iter().enumerate() {
        let best = shortest.entry(kind(case)).or_insert(place);
        if size(case) < size(&cases[*best]) {
            *best = place;
        }
    }
    let mut taken: BTreeSet<usize> = shortest.into_values().collect();
    taken.extend((0..cases.len()).filter(|&place| size(&cases[place]) <= most).step_by(every));
    taken.into_iter().map(|place| cases[place].clone()).collect()
}
