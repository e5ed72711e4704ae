//! The two file formats as README.md writes them, and the commands on them.

use second::case::{Answer, Call, Case};
use second::{files, maker};
use std::io::Write;
use std::process::{Command, Stdio};

fn sample() -> Case {
    Case {
        call: Call::List,
        label: "ab".to_string(),
        image: vec![1, 2, 3],
        request: vec![4],
        list: vec![9, 8],
        numbers: vec![1, 2, 3, 4, 5, 0x0102_0304],
    }
}

#[test]
fn a_case_byte_by_byte() {
    let mut out = Vec::new();
    files::write_cases(&mut out, &[sample()]).expect("written to memory");
    let mut expected = b"IFCC\0\0\0\x01".to_vec();
    expected.extend(b"\0\0\0\x04\0\0\0\x02ab\0\0\0\x03\x01\x02\x03\0\0\0\x01\x04\0\0\0\x02\x09\x08");
    expected.extend(b"\0\0\0\x06\0\0\0\x01\0\0\0\x02\0\0\0\x03\0\0\0\x04\0\0\0\x05\x01\x02\x03\x04");
    assert_eq!(out, expected);
    assert_eq!(files::read_cases(&mut &out[..]), Ok(vec![sample()]));
}

#[test]
fn an_answer_byte_by_byte() {
    let answer = Answer { number: 12, list: vec![7], numbers: vec![5] };
    let mut out = Vec::new();
    files::write_answers(&mut out, std::slice::from_ref(&answer)).expect("written to memory");
    assert_eq!(out, b"IFCA\0\0\0\x01\0\0\0\x0C\0\0\0\x01\x07\0\0\0\x01\0\0\0\x05");
    assert_eq!(files::read_answers(&mut &out[..]), Ok(vec![answer]));
}

#[test]
fn wrong_files_are_errors() {
    let mut out = Vec::new();
    files::write_cases(&mut out, &[sample()]).expect("written to memory");
    for length in 0..out.len() {
        assert!(files::read_cases(&mut &out[..length]).is_err(), "{length} bytes");
    }
    out.push(0);
    assert!(files::read_cases(&mut &out[..]).is_err());
    assert!(files::read_answers(&mut &out[..]).is_err());
}

fn second(words: &[&str], input: &[u8]) -> (Option<i32>, Vec<u8>) {
    let mut child = Command::new(env!("CARGO_BIN_EXE_second"))
        .args(words)
        .stdin(Stdio::piped())
        .stdout(Stdio::piped())
        .spawn()
        .expect("the program starts");
    let mut stdin = child.stdin.take().expect("piped");
    let input = input.to_vec();
    let writer = std::thread::spawn(move || stdin.write_all(&input));
    let output = child.wait_with_output().expect("the program ends");
    // A command that reads no input may close it first.
    let _ = writer.join();
    (output.status.code(), output.stdout)
}

/// Make, answer, compare; then one changed byte is found.
#[test]
fn commands() {
    let folder = std::env::temp_dir().join(format!("second-{}", std::process::id()));
    std::fs::create_dir_all(&folder).expect("a folder");
    let path = |name: &str| folder.join(name).to_str().expect("plain path").to_string();
    let (cases, answers) = (path("cases"), path("answers"));
    let (status, made) = second(&["make", "9", "50"], b"");
    assert_eq!(status, Some(0));
    // 50 random ones, a quarter as many of show and of plain, and a tenth as many of reports in bulk.
    let count = maker::fixed().len() + 50 + 12 + 12 + 5;
    assert_eq!(files::read_cases(&mut &made[..]).expect("a case file").len(), count);
    std::fs::write(&cases, &made).expect("written");
    let (status, mut given) = second(&["answer"], &made);
    assert_eq!(status, Some(0));
    std::fs::write(&answers, &given).expect("written");
    assert_eq!(second(&["compare", &cases, &answers], b"").0, Some(0));
    let last = given.len() - 1;
    given[last] ^= 1;
    std::fs::write(&answers, &given).expect("written");
    let (status, said) = second(&["compare", &cases, &answers], b"");
    assert_eq!(status, Some(1));
    let said = String::from_utf8_lossy(&said).into_owned();
    assert!(said.contains(&format!("case {}", count - 1)), "{said}");
    assert_eq!(second(&["show", "0", &cases], b"").0, Some(0));
    std::fs::remove_dir_all(&folder).expect("removed");
}
