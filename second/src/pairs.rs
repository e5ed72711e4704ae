//! Pairs of a pattern and a text, each asked of both matchers: made as cases, two to a pair, and compared. Of each pair the plain
//! matcher's answer, the main one's and this program's own must agree.

use crate::case::{self, Answer, Case};
use crate::files;
use crate::maker::plains::{of_both, pair};
use crate::maker::random::Random;
use crate::pattern;
use crate::plain::turns;
use std::fs::File;
use std::io::{self, BufReader, BufWriter, Write};

/// `count` pairs, each as a case of plain and one of show.
pub fn cases(seed: u64, count: usize) -> Vec<Case> {
    let mut random = Random::new(seed ^ 0x7B0_0000);
    (0..count).map(|_| pair(&mut random)).flat_map(|(pattern, text)| of_both(&pattern, &text)).collect()
}

pub fn make(seed: u64, count: usize) -> Result<bool, String> {
    let out = &mut BufWriter::new(io::stdout().lock());
    files::write_cases(out, &cases(seed, count)).map_err(|error| error.to_string())?;
    out.flush().map_err(|error| error.to_string())?;
    Ok(true)
}

/// What the two matchers say of one pair, where neither refuses: found, start and length are equal.
pub fn agree(plain: &Answer, shown: &Answer) -> bool {
    plain.number != 0
        || shown.number != 0
        || plain.numbers[..] == [shown.numbers[2], shown.numbers[5], shown.numbers[6]]
}

#[derive(Default)]
struct Seen {
    found: usize,
    refused: usize,
    differ: usize,
    most_turns: u64,
}

fn judge(pair: &[Case], given: &[Answer], seen: &mut Seen) -> bool {
    let own: Vec<Answer> = pair.iter().map(case::answer).collect();
    seen.found += own[0].numbers[0] as usize;
    seen.refused += usize::from(own[0].number != 0);
    if let Some(pattern) = pattern::read(&pair[0].image).filter(|_| own[0].number == 0) {
        seen.most_turns = seen.most_turns.max(turns(&pattern, &pair[0].request));
    }
    own == given && agree(&given[0], &given[1])
}

/// Whether all agree; and whether enough is found, not found and refused for that to mean something.
pub fn compare(cases: &str, answers: &str) -> Result<bool, String> {
    let opened =
        |name: &str| File::open(name).map(BufReader::new).map_err(|error| format!("{name}: {error}"));
    let cases = files::read_cases(&mut opened(cases)?)?;
    let answers = files::read_answers(&mut opened(answers)?)?;
    if cases.len() != answers.len() || cases.len() % 2 != 0 {
        println!("{} cases, {} answers", cases.len(), answers.len());
        return Ok(false);
    }
    let mut seen = Seen::default();
    for (pair, given) in cases.chunks(2).zip(answers.chunks(2)) {
        if !judge(pair, given, &mut seen) {
            seen.differ += 1;
            if seen.differ == 1 {
                println!("{} on {}", pair[0].image.escape_ascii(), pair[0].request.escape_ascii());
                println!(
                    "plain: {:?}\nmain:  {:?}\nsecond: {:?}",
                    given[0],
                    given[1],
                    case::answer(&pair[0])
                );
            }
        }
    }
    let Seen { found, refused, differ, most_turns } = seen;
    let pairs = cases.len() / 2;
    println!("{pairs} pairs, {found} found, {refused} refused, at most {most_turns} turns, {differ} differ");
    let nowhere = pairs - found - refused;
    let enough = [found, nowhere, refused].iter().all(|&count| count * 50 >= pairs);
    if !enough {
        println!("hardly any are of one kind");
    }
    Ok(differ == 0 && enough)
}
