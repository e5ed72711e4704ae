//! Blocks of lines: where they are cut, what is answered, the formats, and what the made ones must hold.

use second::lines::{answer, cases, read_answers, read_cases, write_cases, Lines, Met};

fn met(pattern: &str, fold: u32, block: &str) -> (u32, u32) {
    let case = Lines { pattern: pattern.into(), fold, block: block.into() };
    let Met { number, met } = answer(&case);
    (number, met)
}

#[test]
fn cut_at_each_lf() {
    assert_eq!(met("^$", 0, ""), (0, 1));
    assert_eq!(met("^$", 0, "a"), (0, 0));
    assert_eq!(met("^$", 0, "\n"), (0, 2));
    assert_eq!(met("^$", 0, "a\n\nb\n"), (0, 2));
    assert_eq!(met("^a$", 0, "a\r\na\nba"), (0, 1));
    assert_eq!(met("a", 0, "a\nb\nba"), (0, 2));
}

#[test]
fn no_part_runs_over_an_lf() {
    assert_eq!(met("a.*b", 0, "a\nb"), (0, 0));
    assert_eq!(met("a[^x]b", 0, "a\nb\na-b"), (0, 1));
}

#[test]
fn fold_is_any_number_but_0() {
    assert_eq!(met("^from$", 0, "From\nfrom"), (0, 1));
    for fold in [1, 256, u32::MAX] {
        assert_eq!(met("^from$", fold, "From\nfrom\nfro"), (0, 2));
    }
}

#[test]
fn no_pattern() {
    for pattern in ["", "[z-a]", "a**", "\\"] {
        assert_eq!(met(pattern, 0, "a\n\n"), (5, 0));
    }
}

#[test]
fn files_byte_by_byte() {
    let case = Lines { pattern: b"ab".to_vec(), fold: 258, block: b"c\n".to_vec() };
    let mut out = Vec::new();
    write_cases(&mut out, std::slice::from_ref(&case)).expect("written to memory");
    assert_eq!(out, b"IFCL\0\0\0\x01\0\0\0\x02ab\0\0\x01\x02\0\0\0\x02c\n");
    assert_eq!(read_cases(&out), Ok(vec![case]));
    for length in 0..out.len() {
        assert!(read_cases(&out[..length]).is_err(), "{length} bytes");
    }
    assert_eq!(read_answers(b"IFCM\0\0\0\x01\0\0\0\x05\0\0\0\x07"), Ok(vec![Met { number: 5, met: 7 }]));
    assert!(read_answers(b"IFCM\0\0\0\x01\0\0\0\x05\0\0\0\x07\0").is_err());
}

#[test]
fn most_have_a_pattern_and_a_line_that_it_matches() {
    assert!(cases(3, 400) == cases(3, 400));
    assert!(cases(3, 400) != cases(4, 400));
    let made = cases(5, 10_000);
    let answers: Vec<Met> = made.iter().map(answer).collect();
    assert!(answers.iter().filter(|answer| answer.number == 0).count() > 8_000);
    assert!(answers.iter().filter(|answer| answer.met > 0).count() > 6_000);
    let some_not = made.iter().zip(&answers).filter(|(made, answer)| {
        let lines = made.block.split(|&byte| byte == b'\n').count() as u32;
        answer.met > 0 && answer.met < lines
    });
    assert!(some_not.count() > 3_000);
}
