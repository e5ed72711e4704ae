//! The plain matcher's answers (change request 7), the turns that it takes, and the pairs that both matchers are asked.

use second::case::{answer, Answer};
use second::maker::build::plain as case;
use second::maker::plains::{ends_soon, of_both, pair, TURNS_MOST};
use second::maker::random::Random;
use second::pairs;
use second::pattern::{self, Element, Pattern};
use second::place::Place;
use second::plain::{plain, turns};

fn found(start: usize, length: usize) -> Result<Option<Place>, u32> {
    Ok(Some(Place { start, length }))
}

/// "Refusals: 5, then 17 for a longer text."
#[test]
fn five_comes_first() {
    let texts = [256, 257, 65_536].map(|length| vec![b'a'; length]);
    for pattern in [b"".as_slice(), b"a**", b"[a", b"\\"] {
        for text in &texts {
            assert_eq!(plain(pattern, text), Err(5), "{}", pattern.escape_ascii());
        }
    }
    assert_eq!(texts.each_ref().map(|text| plain(b"aa$", text)), [found(254, 2), Err(17), Err(17)]);
}

/// "It agrees with the main one on every such pair, places of CR 2 included", for edition 1 patterns.
#[test]
fn places_of_change_request_2() {
    let right: [(&[u8], &[u8], Result<Option<Place>, u32>); 9] = [
        (b"a*", b"baa", found(0, 0)),
        (b"b*$", b"baa", found(3, 0)),
        (b"a*ab", b"aaab", found(0, 4)),
        (b"aa*", b"baabaaa", found(1, 2)),
        (b"a|b", b"b a|b", found(2, 3)),
        (b"a|b", b"ab", Ok(None)),
        (b"joe", b"JOE", Ok(None)),
        (b"[+--]", b"a,", found(1, 1)),
        (b"[]a]*$", b"x]a", found(1, 2)),
    ];
    for (pattern, text, right) in right {
        assert_eq!(plain(pattern, text), right, "{} on {}", pattern.escape_ascii(), text.escape_ascii());
    }
}

/// A pattern of more than 1,024 bytes is taken.
#[test]
fn a_long_pattern() {
    let list = [b"[".as_slice(), &[b'a'; 2_000], b"]"].concat();
    assert_eq!(plain(&list, b"ba"), found(1, 1));
}

/// "0, 0, 0"
#[test]
fn nothing_stays_in_the_numbers() {
    for (pattern, text, number) in [("a", "b", 0), ("", "b", 5)] {
        let Answer { number: given, numbers, .. } = answer(&case("", pattern.as_bytes(), text.as_bytes()));
        assert_eq!((given, numbers), (number, vec![0, 0, 0]));
    }
}

/// The choices one after the other, counted while they are tried: how far at most, and the turns.
fn tried(elements: &[Element], at_end: bool, text: &[u8], turns: &mut u64) -> Option<usize> {
    *turns += 1;
    let Some((element, rest)) = elements.split_first() else {
        return (!at_end || text.is_empty()).then_some(0);
    };
    let takes = text.first().is_some_and(|&byte| element.set.has(byte));
    let without = if element.repeats { tried(rest, at_end, text, turns) } else { None };
    let after = if element.repeats { elements } else { rest };
    let with = if takes { tried(after, at_end, &text[1..], turns).map(|length| length + 1) } else { None };
    without.max(with)
}

fn tried_from_each_start(pattern: &Pattern, text: &[u8]) -> (Option<Place>, u64) {
    let mut turns = 0;
    for start in 0..=text.len() {
        if let Some(length) = tried(&pattern.elements, pattern.at_end, &text[start..], &mut turns) {
            return (Some(Place { start, length }), turns);
        }
        if pattern.at_start {
            break;
        }
    }
    (None, turns)
}

/// On random pairs: the parts tried and the choices tried give one place, and the turns are as many as counted without trying.
#[test]
fn choices_and_parts_agree() {
    let mut random = Random::new(7);
    let mut compared = 0;
    for _ in 0..20_000 {
        let (pattern, text) = pair(&mut random);
        let (Ok(place), Some(read)) = (plain(&pattern, &text), pattern::read(&pattern)) else { continue };
        assert_eq!(
            (place, turns(&read, &text)),
            tried_from_each_start(&read, &text),
            "{}",
            pattern.escape_ascii()
        );
        compared += 1;
    }
    assert!(compared > 15_000, "{compared}");
}

/// "Exponential by nature": sixty `a*` on 256 `a` would not end.
#[test]
fn some_pairs_do_not_end() {
    let pattern = b"a*".repeat(60);
    let read = pattern::read(&pattern).expect("sixty elements");
    assert!(!ends_soon(&pattern, &[b'a'; 256]));
    assert_eq!(turns(&read, &[b'a'; 256]), u64::MAX);
    assert!(ends_soon(&pattern, b"a"));
    assert!(turns(&read, b"a") < TURNS_MOST);
}

/// Pairs: enough of them found, not found, refused with each number, long, and with several ways to choose.
#[test]
fn pairs_hold_enough() {
    let cases = pairs::cases(1, 20_000);
    let plains: Vec<_> = cases.iter().step_by(2).collect();
    let answers: Vec<Answer> = plains.iter().map(|case| answer(case)).collect();
    let count = |number: u32, found: u32| {
        answers.iter().filter(|answer| answer.number == number && answer.numbers[0] == found).count()
    };
    assert!(count(0, 1) > 8_000 && count(0, 0) > 2_000, "{} {}", count(0, 1), count(0, 0));
    assert!(count(5, 0) > 500 && count(17, 0) > 100, "{} {}", count(5, 0), count(17, 0));
    assert!(answers.iter().filter(|answer| answer.numbers[1] > 0 && answer.numbers[2] > 1).count() > 1_000);
    assert!(plains.iter().filter(|case| case.request.len() >= 255).count() > 200);
    let many = plains.iter().filter_map(|case| Some(turns(&pattern::read(&case.image)?, &case.request)));
    assert!(many.filter(|&turns| turns > 1_000).count() > 100);
}

/// A pair on which the two matchers differ is told, whichever is wrong.
#[test]
fn disagreement_is_told() {
    let right: Vec<Answer> = of_both(b"a*$", b"baa").iter().map(answer).collect();
    assert!(pairs::agree(&right[0], &right[1]));
    for (which, number) in [(0, 0), (0, 1), (0, 2), (1, 2), (1, 5), (1, 6)] {
        let mut given = right.clone();
        given[which].numbers[number] += 1;
        assert!(!pairs::agree(&given[0], &given[1]), "{which} {number}");
    }
}
