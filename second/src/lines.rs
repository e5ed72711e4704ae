//! How many lines of a block a pattern matches: cases for that one call, made and compared.

use crate::files::{write_bytes, write_number, Parsed, Source};
use crate::maker::random::Random;
use crate::maker::{lean, patterns};
use crate::matching::{matches, Letters};
use crate::pattern;
use std::fs;
use std::io::{self, BufWriter, Write};

const LINES_MARK: &[u8; 4] = b"IFCL";
const MET_MARK: &[u8; 4] = b"IFCM";

#[derive(Clone, PartialEq, Eq, Debug)]
pub struct Lines {
    pub pattern: Vec<u8>,
    /// 0: as written; any other: as on names.
    pub fold: u32,
    pub block: Vec<u8>,
}

#[derive(Clone, Copy, PartialEq, Eq, Debug)]
pub struct Met {
    pub number: u32,
    pub met: u32,
}

pub fn answer(case: &Lines) -> Met {
    let Some(pattern) = pattern::read(&case.pattern) else {
        return Met { number: 5, met: 0 };
    };
    let letters = if case.fold == 0 { Letters::AsWritten } else { Letters::EitherForm };
    let lines = case.block.split(|&byte| byte == b'\n');
    Met { number: 0, met: lines.filter(|line| matches(&pattern, line, letters)).count() as u32 }
}

// ---- making

const NAMES: &[&str] = &[
    "From",
    "Contact",
    "contact",
    "P-Asserted-Identity",
    "P-Charging-Info",
    "p-x-info",
    "Via",
    "i",
    "-",
    "",
];
const VALUES: &[&str] = &[
    "<sip:alice@example.com>;tag=1928301774",
    "\"Bob\" <sip:bob@desk.example.com>;expires=60",
    "SIP/2.0/UDP host.example.com;branch=z9hG4bK776",
    "application/sdp",
    "sip:recorder@example.com",
    "70",
    "",
];
const USUAL: &[&str] =
    &["^Contact$", "P-.*-Info", "[0-9]*", "sip:.*@desk", "recorder", "^[^;]*$", "tag=[0-9]*$", ".", "^$"];
const LETTERS: &[u8] = b"ab-]^$*.\\[\x00\xFFJoE";

/// Each written pattern on its own probes, then `count` random cases.
pub fn cases(seed: u64, count: usize) -> Vec<Lines> {
    let mut cases = Vec::new();
    for pattern in patterns::WRITTEN {
        for fold in [0, 1] {
            cases.push(Lines {
                pattern: pattern.to_vec(),
                fold,
                block: patterns::probes(pattern).join(&b'\n'),
            });
        }
    }
    let mut random = Random::new(seed);
    cases.extend((0..count).map(|_| case(&mut random)));
    cases
}

fn case(random: &mut Random) -> Lines {
    let (pattern, mut block) = match random.below(10) {
        0..=4 => leaning(random),
        5 => long(random),
        6 => wild(random),
        7 => usual(random, NAMES),
        _ => usual(random, VALUES),
    };
    if random.chance(1, 8) {
        lean::damage(random, &mut block);
    }
    Lines { pattern, fold: *random.pick(&[0, 0, 0, 1, 1, 256, u32::MAX]), block }
}

fn text(random: &mut Random, letters: &[u8], bound: usize) -> Vec<u8> {
    (0..random.below(bound)).map(|_| *random.pick(letters)).collect()
}

fn block(random: &mut Random, mut line: impl FnMut(&mut Random) -> Vec<u8>) -> Vec<u8> {
    let lines: Vec<Vec<u8>> = (0..random.between(1, 6)).map(|_| line(random)).collect();
    lines.join(&b'\n')
}

/// The pattern leans on one line of the block.
fn leaning(random: &mut Random) -> (Vec<u8>, Vec<u8>) {
    let block = block(random, |random| text(random, LETTERS, 12));
    let lines: Vec<&[u8]> = block.split(|&byte| byte == b'\n').collect();
    let line = *random.pick(&lines);
    (lean::pattern(random, line), block)
}

/// Up to 62 elements of few bytes, so that many ways through a line compete.
fn long(random: &mut Random) -> (Vec<u8>, Vec<u8>) {
    let parts = ["a", "a*", "b*", "[ab]*", ".", ".*", "[^a]", "[^b]*", "ab*"];
    let mut pattern: Vec<u8> = Vec::new();
    for _ in 0..random.between(8, 62) {
        pattern.extend(random.pick(&parts).bytes());
    }
    if random.chance(1, 2) {
        pattern.insert(0, b'^');
    }
    if random.chance(1, 2) {
        pattern.push(b'$');
    }
    (pattern, block(random, |random| text(random, b"aaabB", 120)))
}

/// Any pattern; most of them are refused.
fn wild(random: &mut Random) -> (Vec<u8>, Vec<u8>) {
    let pattern = text(random, b"ab-]]^$*.\\[[:=-c\x00\xFF", 9);
    (pattern, block(random, |random| text(random, LETTERS, 9)))
}

fn usual(random: &mut Random, lines: &[&str]) -> (Vec<u8>, Vec<u8>) {
    let block = block(random, |random| random.pick(lines).bytes().collect());
    let line = random.pick(lines).as_bytes();
    let pattern =
        if random.chance(1, 2) { random.pick(USUAL).bytes().collect() } else { lean::pattern(random, line) };
    (pattern, block)
}

// ---- files: README.md has both formats

pub fn write_cases(out: &mut impl Write, cases: &[Lines]) -> io::Result<()> {
    out.write_all(LINES_MARK)?;
    write_number(out, cases.len() as u32)?;
    for case in cases {
        write_bytes(out, &case.pattern)?;
        write_number(out, case.fold)?;
        write_bytes(out, &case.block)?;
    }
    out.flush()
}

pub fn read_cases(bytes: &[u8]) -> Parsed<Vec<Lines>> {
    let mut source = Source(bytes);
    let count = source.mark(LINES_MARK)?;
    let read = |source: &mut Source| -> Parsed<Lines> {
        Ok(Lines { pattern: source.bytes()?, fold: source.number()?, block: source.bytes()? })
    };
    let cases = (0..count).map(|_| read(&mut source)).collect::<Parsed<Vec<Lines>>>()?;
    source.ends()?;
    Ok(cases)
}

pub fn read_answers(bytes: &[u8]) -> Parsed<Vec<Met>> {
    let mut source = Source(bytes);
    let count = source.mark(MET_MARK)?;
    let read =
        |source: &mut Source| -> Parsed<Met> { Ok(Met { number: source.number()?, met: source.number()? }) };
    let answers = (0..count).map(|_| read(&mut source)).collect::<Parsed<Vec<Met>>>()?;
    source.ends()?;
    Ok(answers)
}

// ---- the command

pub fn make(seed: u64, count: usize) -> Result<bool, String> {
    let out = &mut BufWriter::new(io::stdout().lock());
    write_cases(out, &cases(seed, count)).map_err(|error| error.to_string())?;
    Ok(true)
}

fn bytes_of(name: &str) -> Result<Vec<u8>, String> {
    fs::read(name).map_err(|error| format!("{name}: {error}"))
}

pub fn compare(cases: &str, answers: &str) -> Result<bool, String> {
    let cases = read_cases(&bytes_of(cases)?)?;
    let answers = read_answers(&bytes_of(answers)?)?;
    if cases.len() != answers.len() {
        println!("{} blocks of lines, {} answers", cases.len(), answers.len());
        return Ok(false);
    }
    let own: Vec<Met> = cases.iter().map(answer).collect();
    let differing: Vec<usize> = (0..cases.len()).filter(|&place| own[place] != answers[place]).collect();
    let read = own.iter().filter(|own| own.number == 0).count();
    let met = own.iter().filter(|own| own.met > 0).count();
    println!(
        "{} blocks of lines, {read} with a pattern, {met} with a line that it matches, {} differ",
        cases.len(),
        differing.len()
    );
    if let Some(&place) = differing.first() {
        let Lines { pattern, fold, block } = &cases[place];
        println!("{place}: {} fold {fold} on {}", pattern.escape_ascii(), block.escape_ascii());
        println!("second: {:?}\ngiven:  {:?}", own[place], answers[place]);
    }
    Ok(differing.is_empty())
}
