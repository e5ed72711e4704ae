//! The commands: make, few, answer, compare, show, parts, lines, pairs, mutants.

use second::case::{self, Answer, Case};
use second::{files, lines, maker, pairs, parts, show};
use std::fs::File;
use std::io::{self, BufWriter, Read, Write};
use std::process::ExitCode;

const USAGE: &str = "second make SEED COUNT > cases
second few SEED COUNT EVERY MOST > cases
second answer [CASES [ANSWERS]]
second compare CASES ANSWERS
second show N CASES
second parts make SEED COUNT > requests
second parts compare REQUESTS COUNTS
second lines make SEED COUNT > lines
second lines compare LINES ANSWERS
second pairs make SEED COUNT > cases
second pairs compare CASES ANSWERS
second mutants [SEED COUNT]   (built with --features twists)";

fn main() -> ExitCode {
    let words: Vec<String> = std::env::args().skip(1).collect();
    let words: Vec<&str> = words.iter().map(String::as_str).collect();
    let done = match words[..] {
        ["make", seed, count] => make(seed, count),
        ["few", seed, count, every, most] => few(seed, count, every, most),
        ["answer"] => answer("-", "-"),
        ["answer", cases] => answer(cases, "-"),
        ["answer", cases, answers] => answer(cases, answers),
        ["compare", cases, answers] => compare(cases, answers),
        ["show", number, cases] => show_case(number, cases),
        ["parts", ref rest @ ..] => parts::run(rest),
        ["lines", "make", seed, count] => make_lines(seed, count),
        ["lines", "compare", lines, answers] => lines::compare(lines, answers),
        ["pairs", "make", seed, count] => make_pairs(seed, count),
        ["pairs", "compare", cases, answers] => pairs::compare(cases, answers),
        ["mutants"] => mutants("1", "4000"),
        ["mutants", seed, count] => mutants(seed, count),
        _ => Err(USAGE.to_string()),
    };
    match done {
        Ok(true) => ExitCode::SUCCESS,
        Ok(false) => ExitCode::from(1),
        Err(message) => {
            eprintln!("{message}");
            ExitCode::from(2)
        }
    }
}

type Done = Result<bool, String>;

fn number(word: &str) -> Result<u64, String> {
    word.parse().map_err(|_| format!("{word} is no number"))
}

fn words<T>(result: io::Result<T>) -> Result<T, String> {
    result.map_err(|error| error.to_string())
}

fn source(name: &str) -> Result<Box<dyn Read>, String> {
    match name {
        "-" => Ok(Box::new(io::stdin())),
        _ => File::open(name)
            .map(|file| Box::new(file) as Box<dyn Read>)
            .map_err(|error| format!("{name}: {error}")),
    }
}

fn sink(name: &str) -> Result<Box<dyn Write>, String> {
    match name {
        "-" => Ok(Box::new(io::stdout())),
        _ => File::create(name)
            .map(|file| Box::new(file) as Box<dyn Write>)
            .map_err(|error| format!("{name}: {error}")),
    }
}

fn make(seed: &str, count: &str) -> Done {
    write_made(&maker::cases(number(seed)?, number(count)? as usize))
}

fn few(seed: &str, count: &str, every: &str, most: &str) -> Done {
    let every = (number(every)? as usize).max(1);
    write_made(&maker::few::few(number(seed)?, number(count)? as usize, every, number(most)? as usize))
}

fn write_made(cases: &[Case]) -> Done {
    words(files::write_cases(&mut BufWriter::new(io::stdout().lock()), cases))?;
    Ok(true)
}

fn make_lines(seed: &str, count: &str) -> Done {
    lines::make(number(seed)?, number(count)? as usize)
}

fn make_pairs(seed: &str, count: &str) -> Done {
    pairs::make(number(seed)?, number(count)? as usize)
}

fn answer(cases: &str, answers: &str) -> Done {
    let cases = files::read_cases(&mut source(cases)?)?;
    let given: Vec<Answer> = cases.iter().map(case::answer).collect();
    words(files::write_answers(&mut BufWriter::new(sink(answers)?), &given))?;
    Ok(true)
}

fn compare(cases: &str, answers: &str) -> Done {
    let cases = files::read_cases(&mut source(cases)?)?;
    let answers = files::read_answers(&mut source(answers)?)?;
    if cases.len() != answers.len() {
        println!("{} cases, {} answers", cases.len(), answers.len());
        return Ok(false);
    }
    let mut differing =
        cases.iter().zip(&answers).enumerate().filter(|(_, (case, given))| case::answer(case) != **given);
    let Some((place, (case, given))) = differing.next() else {
        println!("{} cases, no difference", cases.len());
        return Ok(true);
    };
    print_difference(place, case, given);
    println!("{} of {} cases differ", differing.count() + 1, cases.len());
    Ok(false)
}

fn print_difference(place: usize, case: &Case, given: &Answer) {
    let own = case::answer(case);
    print!("{}", show::case(place, case));
    print!("second: {}", show::answer(case, &own));
    print!("given:  {}", show::answer(case, given));
    println!("differ in: {}", show::difference(case, &own, given));
}

fn show_case(place: &str, cases: &str) -> Done {
    let place = number(place)? as usize;
    let cases = files::read_cases(&mut source(cases)?)?;
    let case = cases.get(place).ok_or(format!("there are {} cases", cases.len()))?;
    print!("{}", show::case(place, case));
    print!("second: {}", show::answer(case, &case::answer(case)));
    Ok(true)
}

#[cfg(feature = "twists")]
fn mutants(seed: &str, count: &str) -> Done {
    Ok(second::mutants::run(number(seed)?, number(count)? as usize))
}

#[cfg(not(feature = "twists"))]
fn mutants(_: &str, _: &str) -> Done {
    Err("mutants are not in this build: cargo run --release --features twists -- mutants".to_string())
}
