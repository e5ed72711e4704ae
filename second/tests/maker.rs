//! What the made cases must hold: every limit, every number, every point, enough forwards.

use second::case::{answer, Call, Case, RECORD};
use second::files;
use second::maker::{self, random::Random};
use second::request::name::SHORT;
use second::twist::ALL;
use std::collections::BTreeSet;

/// The reference outputs of splitmix64 for this seed.
#[test]
fn the_numbers_are_splitmix64() {
    let mut random = Random::new(1_234_567);
    let expected = [6_457_827_717_110_365_317, 3_203_168_211_198_807_973, 9_817_491_932_198_370_423];
    assert_eq!([random.draw(), random.draw(), random.draw()], expected);
}

#[test]
fn one_seed_one_file() {
    assert!(maker::random(3, 400) == maker::random(3, 400));
    assert!(maker::random(3, 400) != maker::random(4, 400));
    assert_eq!(maker::random(3, 401).len(), 401);
}

#[test]
fn a_third_of_the_random_advances_forward() {
    let cases = maker::random(11, 20_000);
    let advances: Vec<_> = cases.iter().filter(|case| case.call == Call::Advance).collect();
    let forwards = advances.iter().filter(|case| answer(case).numbers[6] == 1).count();
    assert!(advances.len() > 4_000);
    assert!(forwards * 3 >= advances.len(), "{forwards} of {}", advances.len());
    let routes = advances.iter().filter(|case| answer(case).numbers[6] == 2).count();
    assert!(routes * 10 >= advances.len(), "{routes} of {}", advances.len());
}

/// Of the random advances on a request that has fields, at least half have a short one, and some rows ask for one.
#[test]
fn random_requests_have_short_names() {
    let cases = maker::random(13, 20_000);
    let short = |line: &[u8]| {
        let name = line.split(|byte| b" \t:".contains(byte)).next().unwrap_or_default();
        name.len() == 1 && SHORT.iter().any(|(letter, ..)| name[0].to_ascii_lowercase() == *letter)
    };
    let head = |case: &Case| {
        let end = case.request.windows(4).position(|four| four == b"\r\n\r\n").unwrap_or(0);
        case.request[..end].split(|&byte| byte == b'\n').skip(1).map(<[u8]>::to_vec).collect::<Vec<_>>()
    };
    let heads: Vec<Vec<Vec<u8>>> = cases
        .iter()
        .filter(|case| case.call == Call::Advance)
        .map(head)
        .filter(|head| !head.is_empty())
        .collect();
    let with = heads.iter().filter(|head| head.iter().any(|line| short(line))).count();
    assert!(heads.len() > 4_000);
    assert!(with * 2 >= heads.len(), "{with} of {}", heads.len());
    let asked = |pattern: &[u8]| {
        cases.iter().filter(|case| case.image.windows(pattern.len()).any(|part| part == pattern)).count()
    };
    for pattern in [b"^f$".as_slice(), b"^.$"] {
        assert!(asked(pattern) > 100, "{}", pattern.escape_ascii());
    }
}

/// Of the random requests that have a body at least half have exactly one right Content-Type field, and of the others
/// some have none, some one, some several. Line rows meet both.
#[test]
fn random_bodies_are_mostly_session_descriptions() {
    let cases = maker::random(17, 20_000);
    let read = |case: &Case| second::request::read(&case.request);
    let bodies: Vec<_> = cases
        .iter()
        .filter(|case| case.call == Call::Advance && !case.label.starts_with("damaged"))
        .filter(|case| !case.request.ends_with(b"\r\n\r\n") && !case.label.contains("pattern"))
        .filter_map(read)
        .collect();
    let described = bodies.iter().filter(|request| request.described).count();
    assert!(bodies.len() > 3_000);
    assert!(described * 2 >= bodies.len(), "{described} of {}", bodies.len());
    let mut others = [0; 3];
    for request in bodies.iter().filter(|request| !request.described) {
        let fields = request.fields.iter().filter(|field| field.name.eq_ignore_ascii_case(b"Content-Type"));
        others[fields.count().min(2)] += 1;
    }
    assert!(others.iter().all(|&count| count > 100), "{others:?}");
}

/// Random shows: several to an image, a third of them found, some beyond the first field, value and byte, and some REGISTERs.
#[test]
fn random_shows_find() {
    let cases = maker::shows::random(15, 5_000);
    assert!(cases.iter().all(|case| case.call == Call::Show));
    let images: BTreeSet<&[u8]> = cases.iter().map(|case| case.image.as_slice()).collect();
    assert!(cases.len() >= 3 * images.len(), "{} images", images.len());
    let answers: Vec<Vec<u32>> = cases.iter().map(answer).map(|answer| answer.numbers).collect();
    let found = answers.iter().filter(|numbers| numbers[2] == 1).count();
    assert!(found * 3 >= cases.len(), "{found} of {}", cases.len());
    for number in 3..7 {
        let more = answers.iter().filter(|numbers| numbers[number] > 0).count();
        assert!(more > 100, "number {number}: {more}");
    }
    let registers = cases.iter().zip(&answers).filter(|(case, _)| case.request.starts_with(b"REGISTER "));
    assert!(registers.filter(|(_, numbers)| numbers[2] == 1).count() > 50);
}

/// Random reports in bulk: most are taken, some have lists that differ or are too long, and single ones are refused with 8 and 10.
#[test]
fn random_reports_are_mixed() {
    let cases = maker::bulks::random(19, 5_000);
    assert!(cases.iter().all(|case| case.call == Call::Reports));
    let refused = cases.iter().filter(|case| answer(case).number == 17);
    let (long, other): (Vec<&Case>, Vec<&Case>) =
        refused.partition(|case| case.numbers.iter().all(|&length| length > 256));
    assert!(
        long.len() > 50 && other.len() > 100 && long.len() + other.len() < 1_000,
        "{} and {}",
        long.len(),
        other.len()
    );
    let mut seen = [0; 11];
    for case in cases.iter().filter(|case| answer(case).number == 0) {
        for number in answer(case).list[4 * RECORD * case.numbers[0] as usize..].chunks_exact(4) {
            seen[number[3] as usize] += 1;
        }
    }
    assert!(seen[0] > 10_000 && seen[8] > 1_000 && seen[10] > 1_000, "{seen:?}");
}

/// Walks go further than one forward, and lists are longer than one.
#[test]
fn walks_and_lists_are_long() {
    let cases = maker::random(12, 20_000);
    let second = cases.iter().filter(|case| case.call == Call::Advance && case.numbers[2] == 1);
    assert!(second.filter(|case| answer(case).numbers[6] == 1).count() > 300);
    let lists = cases.iter().filter(|case| case.call == Call::List);
    assert!(lists.filter(|case| answer(case).numbers[3] > 1).count() > 300);
}

#[test]
fn every_number_of_every_call() {
    let given: BTreeSet<(u32, u32)> =
        maker::fixed().iter().map(|case| (case.call as u32, answer(case).number)).collect();
    let image = [0, 1, 2, 3, 4, 5, 6];
    let expected = [
        (Call::Check, image.to_vec()),
        (Call::Open, vec![0, 8]),
        (Call::Advance, [&image[..], &[7, 10, 11]].concat()),
        (Call::Report, vec![0, 8, 10]),
        (Call::List, [&image[..], &[7, 8, 9, 11, 12]].concat()),
        (Call::Server, [&image[..], &[13]].concat()),
        (Call::Information, [&image[..], &[13]].concat()),
        (Call::Show, [&image[..], &[7, 13]].concat()),
        (Call::Reports, vec![0, 17]),
        (Call::Plain, vec![0, 5, 17]),
    ];
    let expected: BTreeSet<(u32, u32)> = expected
        .iter()
        .flat_map(|(call, numbers)| numbers.iter().map(|&number| (*call as u32, number)))
        .collect();
    assert_eq!(given, expected);
}

/// The kept cases: no refusal of any call is missing, nor a way to go on, and what crates/vectors has room for is enough.
#[test]
fn few_of_every_kind() {
    let told = |cases: &[Case]| -> BTreeSet<(u32, u32)> {
        cases.iter().map(|case| (case.call as u32, answer(case).number)).collect()
    };
    // As in kept.sh.
    let few = maker::few::few(1, 4_000, 40, 1_000);
    let left_out = |case: &Case| matches!(case.call, Call::Show | Call::Reports | Call::Plain);
    let run: Vec<Case> = maker::fixed().into_iter().filter(|case| !left_out(case)).collect();
    assert_eq!(told(&few), told(&run));
    let advances = few.iter().filter(|case| case.call == Call::Advance);
    let outcomes: Vec<u32> = advances.map(|case| answer(case).numbers[6]).collect();
    for outcome in [1, 2] {
        assert!(outcomes.iter().filter(|&&given| given == outcome).count() > 50, "outcome {outcome}");
    }
    let lists = few.iter().filter(|case| case.call == Call::List);
    assert!(lists.filter(|case| answer(case).numbers[3] > 1).count() > 20);
    assert!(few.iter().all(|case| case.list.len() <= 512));
    let (mut cases, mut answers) = (Vec::new(), Vec::new());
    files::write_cases(&mut cases, &few).expect("written to memory");
    files::write_answers(&mut answers, &few.iter().map(answer).collect::<Vec<_>>())
        .expect("written to memory");
    assert!(cases.len() < 1_000_000 && answers.len() < 200_000);
}

/// The readings marked H.
const MARKED: &[&str] = &[
    "P1", "P3", "P6", "P7", "P9", "I1", "I2", "I3", "I5", "I6", "I9", "R1", "R13", "F2", "F7", "S2", "S3",
    "S5", "L5", "1.1", "2.1", "2.2", "2.5", "2.8", "5.2",
];

#[test]
fn every_marked_point_has_a_case() {
    let cases = maker::points::cases();
    for point in MARKED {
        let prefix = format!("{point}:");
        assert!(cases.iter().any(|case| case.label.starts_with(&prefix)), "{point}");
    }
}

/// Each taken the other way, among the mutants.
#[test]
fn every_marked_point_has_a_twist() {
    for point in MARKED {
        let prefix = format!("{point}:");
        assert!(ALL.iter().any(|(_, text)| text.starts_with(&prefix)), "{point}");
    }
}

/// On each side of a limit one answer is a refusal and the other is not.
#[test]
fn every_limit_from_both_sides() {
    let cases = maker::boundaries::cases();
    let number = |label: &str, call: Call| {
        let label = format!("limit: {label}");
        let case = cases.iter().find(|case| case.label == label && case.call == call);
        answer(case.unwrap_or_else(|| panic!("no case {label}"))).number
    };
    let images = [
        ("1024 strings", "1025 strings", 4),
        ("a string of 1024 bytes", "a string of 1025 bytes", 4),
        ("2048 rows", "2049 rows", 4),
        ("64 criteria", "65 criteria", 4),
        ("32 rows in a trigger", "33 rows in a trigger", 4),
        ("8 memberships of a row", "9 memberships of a row", 4),
        ("60 elements, plain", "61 elements, plain", 5),
        ("image of 32768 bytes", "image of 32769 bytes", 1),
    ];
    for (within, beyond, refusal) in images {
        assert_eq!((number(within, Call::Check), number(beyond, Call::Check)), (0, refusal), "{beyond}");
    }
    let (within, beyond) = ("16384 memberships counted", "16385 memberships counted");
    assert_eq!((number(within, Call::Check), number(beyond, Call::Check)), (2, 4));
    for what in ["value", "body", "other body", "Content-Type", "blanks", "commas"] {
        assert_eq!(number(&format!("request of 65535 bytes by its {what}"), Call::Advance), 0);
        assert_eq!(number(&format!("request of 65536 bytes by its {what}"), Call::Advance), 7);
    }
}

/// Nothing of the largest images and requests is refused.
#[test]
fn masses_are_answered() {
    for case in maker::masses::cases() {
        assert_eq!(answer(&case).number, 0, "{}", case.label);
    }
}

/// A lent number is written or kept, never left as the mark it held.
#[test]
fn no_mark_stays() {
    for case in maker::fixed().iter().chain(&maker::random(5, 5_000)) {
        let names = case.call.numbers();
        for (name, number) in names.iter().zip(answer(case).numbers) {
            assert!(number & 0xFFFF_FF00 != 0xDEAD_BE00, "{} {name}", case.label);
        }
    }
}
