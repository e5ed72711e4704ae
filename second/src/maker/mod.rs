//! Makes cases from a seed: the fixed ones first, then random ones.

pub mod boundaries;
pub mod build;
pub mod bulks;
pub mod draft;
pub mod faults;
pub mod few;
pub mod lean;
pub mod masses;
pub mod operators;
pub mod orders;
pub mod patterns;
pub mod plains;
pub mod points;
pub mod random;
pub mod requests;
pub mod shows;
pub mod texts;
pub mod types;
pub mod walks;

use crate::case::{self, Case};
use crate::session::Session;
use random::Random;

/// The same for every seed.
pub fn fixed() -> Vec<Case> {
    let mut cases = points::cases();
    cases.extend(orders::cases());
    cases.extend(walks::longest());
    cases.extend(faults::cases());
    cases.extend(patterns::cases());
    cases.extend(requests::cases());
    cases.extend(boundaries::cases());
    cases.extend(masses::cases());
    cases.extend(shows::of_patterns());
    cases.extend(bulks::cases());
    cases.extend(plains::of_patterns());
    cases
}

pub fn random(seed: u64, count: usize) -> Vec<Case> {
    let mut random = Random::new(seed);
    let mut cases = Vec::new();
    while cases.len() < count {
        match random.below(20) {
            0..=10 => cases.extend(walks::walk(&mut random)),
            11 | 12 => cases.extend(listing(&mut random)),
            13 if random.chance(1, 3) => cases.extend(long_pattern(&mut random)),
            13 => cases.extend(leaning_pattern(&mut random)),
            14 => cases.extend(wild_pattern(&mut random)),
            15 | 16 => cases.extend(damaged_request(&mut random)),
            17 => cases.extend(damaged_image(&mut random)),
            18 => cases.extend(lookups(&mut random)),
            _ => cases.push(record(&mut random)),
        }
    }
    cases.truncate(count);
    cases
}

/// All fixed cases, then `count` random ones, then a quarter as many of show and of plain, and a tenth as many of reports in bulk.
pub fn cases(seed: u64, count: usize) -> Vec<Case> {
    let mut cases = fixed();
    cases.extend(random(seed, count));
    cases.extend(shows::random(seed, count / 4));
    cases.extend(bulks::random(seed, count / 10));
    cases.extend(plains::random(seed, count / 4));
    cases
}

/// A REGISTER listed with no places, one too few, just enough, and more.
fn listing(random: &mut Random) -> Vec<Case> {
    let request = lean::request(random, b"REGISTER");
    let of = if random.chance(1, 20) { 4 } else { random.below(4) as u32 };
    let kind = if random.chance(1, 20) { 3 } else { random.below(3) as u32 };
    let image = lean::image(random, &request, of).bytes();
    let full = build::list("listing: 64 places", &image, &request, of, kind, 64);
    let count = case::answer(&full).numbers[3] as usize;
    let mut cases = vec![full];
    for places in [0, count.saturating_sub(1), count, count + 1, count + random.below(300)] {
        cases.push(build::list(&format!("listing: {places} places"), &image, &request, of, kind, places));
    }
    if random.chance(1, 4) {
        cases.push(build::advance(
            "listing: advanced",
            &image,
            &request,
            Session { case: of, ..build::READY },
        ));
    }
    cases
}

fn short_text(random: &mut Random, letters: &[u8]) -> Vec<u8> {
    (0..random.below(9)).map(|_| *random.pick(letters)).collect()
}

/// A pattern that leans on its text.
fn leaning_pattern(random: &mut Random) -> Vec<Case> {
    let text = short_text(random, b"ab-]^$*.\\[\x00\xFFJoe");
    let pattern = lean::pattern(random, &text);
    let mut cases = vec![patterns::on_line("leaning pattern", &pattern, &text)];
    let mut other = text.clone();
    lean::damage(random, &mut other);
    other.retain(|&byte| byte != b'\n');
    cases.push(patterns::on_line("leaning pattern", &pattern, &other));
    cases
}

/// Up to 62 elements of few bytes, so that many ways through the text compete.
fn long_pattern(random: &mut Random) -> Vec<Case> {
    let mut pattern = Vec::new();
    for _ in 0..random.between(8, 62) {
        pattern.extend(random.pick(&["a", "a*", "b*", "[ab]*", ".", ".*", "[^a]", "[^b]*", "ab*"]).bytes());
    }
    if random.chance(1, 2) {
        pattern.insert(0, b'^');
    }
    if random.chance(1, 2) {
        pattern.push(b'$');
    }
    let text: Vec<u8> = (0..random.below(120)).map(|_| *random.pick(b"aaab")).collect();
    vec![patterns::on_line("long pattern", &pattern, &text)]
}

/// Any pattern; most of them are refused.
fn wild_pattern(random: &mut Random) -> Vec<Case> {
    let pattern = short_text(random, b"ab-]]^$*.\\[[:=-c\x00\xFF");
    let text = short_text(random, b"abc-]^$*.\\[\x00\xFF");
    let image = boundaries::pattern_image(&pattern).bytes();
    let label = format!("wild pattern {}", pattern.escape_ascii());
    vec![build::check(&label, &image), patterns::on_line(&label, &pattern, &text)]
}

fn damaged_request(random: &mut Random) -> Vec<Case> {
    let register = random.chance(1, 2);
    let method = if register { b"REGISTER".to_vec() } else { lean::method(random) };
    let mut request = lean::request(random, &method);
    let image = lean::image(random, &request, 0).bytes();
    lean::damage(random, &mut request);
    if register {
        return vec![build::list("damaged request", &image, &request, 0, 1, 64)];
    }
    vec![build::advance("damaged request", &image, &request, build::READY)]
}

fn damaged_image(random: &mut Random) -> Vec<Case> {
    let method = lean::method(random);
    let request = lean::request(random, &method);
    let mut image = lean::image(random, &request, 0).bytes();
    lean::damage(random, &mut image);
    let mut cases = vec![build::check("damaged image", &image)];
    if random.chance(1, 4) {
        cases.push(build::advance("damaged image", &image, &request, build::READY));
    }
    cases
}

fn lookups(random: &mut Random) -> Vec<Case> {
    let method = lean::method(random);
    let request = lean::request(random, &method);
    let draft = lean::image(random, &request, 0);
    let image = draft.bytes();
    let number = random.below(draft.criteria.len() + 2) as u32;
    vec![
        build::check("lookup", &image),
        build::server("lookup", &image, number),
        build::information("lookup", &image, number),
    ]
}

/// Any record, most of which no session can have.
fn record(random: &mut Random) -> Case {
    let session = Session {
        case: random.below(6) as u32,
        state: random.below(6) as u32,
        forwarded: random.below(3) as u32,
        last: *random.pick(&[0, 0, 5, u32::MAX]),
        handling: random.below(3) as u32,
    };
    build::report("random record", session, random.below(4) as u32)
}
