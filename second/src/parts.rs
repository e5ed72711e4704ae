//! The parts of requests, counted, and where their heads end: makes requests, and holds another
//! program's numbers against its own. README.md has both file formats.

use crate::files::{write_bytes, write_number, Parsed, Source};
use crate::maker::random::Random;
use crate::maker::{self, lean, types};
use crate::request;
use std::fs;
use std::io::{self, Write};

const REQUESTS_MARK: &[u8; 4] = b"IFCR";
const COUNTS_MARK: &[u8; 4] = b"IFCP";

/// Refusal, fields, values of all fields, session lines, length of the head.
pub type Counts = [u32; 5];

/// "Request unreadable" is refusal 7. Without CR LF CR LF all bytes are the head.
pub fn counts(text: &[u8]) -> Counts {
    let head = request::end_of_head(text).unwrap_or(text.len()) as u32;
    let Some(request) = request::read(text) else { return [7, 0, 0, 0, head] };
    let values: usize = request.fields.iter().map(|field| field.values.len()).sum();
    [0, request.fields.len() as u32, values as u32, request.session_lines().len() as u32, head]
}

/// Every request of the fixed cases once, every small mixture of CR, LF and another byte, random
/// requests with the end of the head at every place, then `count` random ones.
pub fn requests(seed: u64, count: usize) -> Vec<Vec<u8>> {
    let mut requests: Vec<Vec<u8>> = maker::fixed().into_iter().map(|case| case.request).collect();
    requests.sort();
    requests.dedup();
    requests.extend(mixtures(7));
    let mut random = Random::new(seed);
    for place in 0..PLACES {
        requests.push(ending(&mut random, place));
        requests.push(strewn(&mut random, place));
    }
    requests.extend((0..count).map(|_| any(&mut random)));
    requests
}

/// How many places an end of the head is put at.
pub const PLACES: usize = 1_500;

/// All texts of at most so many bytes that are CR, LF or `a`.
fn mixtures(most: usize) -> Vec<Vec<u8>> {
    let mut all = vec![Vec::new()];
    let mut shorter = 0;
    for _ in 0..most {
        let longer = all.len();
        for place in shorter..longer {
            all.extend([b'\r', b'\n', b'a'].map(|byte| [all[place].as_slice(), &[byte]].concat()));
        }
        shorter = longer;
    }
    all
}

/// A readable request whose head has so many bytes, if that is enough for a start line.
fn ending(random: &mut Random, head: usize) -> Vec<u8> {
    let spare = head.saturating_sub(b"A  SIP/2.0".len());
    let uri = if spare < 8 { spare } else { random.between(1, spare.min(40) - 4) };
    let mut out = [b"A ".as_slice(), &vec![b'b'; uri], b" SIP/2.0"].concat();
    while out.len() < head {
        let left = head - out.len();
        let line = if left < 8 { left } else { random.between(4, left - 4) };
        out.extend(b"\r\nX:");
        value(random, line - 4, &mut out);
    }
    out.truncate(head);
    out.extend(b"\r\n\r\n");
    tail(random, &mut out);
    out
}

/// So many bytes of a value, with folds.
fn value(random: &mut Random, bytes: usize, out: &mut Vec<u8>) {
    let end = out.len() + bytes;
    while out.len() < end {
        match end - out.len() > 2 && random.chance(1, 12) {
            true => out.extend(b"\r\n "),
            false => out.push(*random.pick(b"aaaaaab,\"<> \t:\xFF")),
        }
    }
}

/// CR LF CR LF at a place, before it CR and LF in any order, now and then many.
fn strewn(random: &mut Random, place: usize) -> Vec<u8> {
    let seldom = *random.pick(&[2, 5, 50]);
    let byte = |random: &mut Random| match random.chance(1, seldom) {
        true => *random.pick(b"\r\n\r\n\t\x00"),
        false => b'a',
    };
    let mut out: Vec<u8> = (0..place).map(|_| byte(random)).collect();
    out.extend(b"\r\n\r\n");
    tail(random, &mut out);
    out
}

/// What may follow: more of the same, or half of it.
fn tail(random: &mut Random, out: &mut Vec<u8>) {
    for _ in 0..random.below(6) {
        out.extend(*random.pick(&[b"\r\n\r\n".as_slice(), b"\r\n", b"\r", b"\n", b"a=", b"b=c\r\n"]));
    }
}

/// A third of them damaged.
fn any(random: &mut Random) -> Vec<u8> {
    let method = lean::method(random);
    let mut request = match random.chance(1, 2) {
        true => lean::request(random, &method),
        false => mixed(random),
    };
    if random.chance(1, 3) {
        lean::damage(random, &mut request);
    }
    request
}

/// Values of the bytes that open, close and cut, in any order, and a body of those that end lines, which is
/// mostly a session description. Now and then long ones, some past the limit.
fn mixed(random: &mut Random) -> Vec<u8> {
    let most = if random.chance(1, 200) { 400 } else { 12 };
    let mut out = b"A b SIP/2.0\r\n".to_vec();
    let described = random.chance(2, 3);
    if described {
        out.extend(types::right(random));
    }
    for _ in 0..random.below(most) {
        if out.len() > 65_000 {
            break;
        }
        let names = ["X", "Subject", "dATE", "Dates", "m", "s", "S", "ss", "c", "Content-Type"];
        out.extend(random.pick(&names[..if described { 8 } else { 10 }]).bytes());
        out.extend(random.pick(&[":", " \t:", ": "]).bytes());
        for _ in 0..random.below(most) {
            out.extend(*random.pick(&[
                b"a".as_slice(),
                b",",
                b"\"",
                b"<",
                b">",
                b"\\",
                b" ",
                b"\t",
                b"\r\n ",
                b":",
                b"\xFF",
            ]));
        }
        out.extend(b"\r\n");
    }
    out.extend(b"\r\n");
    for _ in 0..random.below(2 * most) {
        out.extend(*random.pick(&[b"a".as_slice(), b"=", b"\r", b"\n", b"a=", b"\r\n"]));
    }
    out
}

/// `parts make SEED COUNT` and `parts compare REQUESTS COUNTS`.
pub fn run(words: &[&str]) -> Result<bool, String> {
    match words {
        ["make", seed, count] => {
            let number = |word: &str| word.parse().map_err(|_| format!("{word} is no number"));
            let made = requests(number(seed)?, number(count)? as usize);
            write_requests(&mut io::BufWriter::new(io::stdout().lock()), &made)
                .map_err(|error| error.to_string())?;
            Ok(true)
        }
        ["compare", requests, counts] => {
            let file = |name: &str| fs::read(name).map_err(|error| format!("{name}: {error}"));
            compare(&read_requests(&file(requests)?)?, &read_counts(&file(counts)?)?)
        }
        _ => Err("parts make SEED COUNT, or parts compare REQUESTS COUNTS".to_string()),
    }
}

fn write_requests(out: &mut impl Write, requests: &[Vec<u8>]) -> io::Result<()> {
    out.write_all(REQUESTS_MARK)?;
    write_number(out, requests.len() as u32)?;
    requests.iter().try_for_each(|request| write_bytes(out, request))?;
    out.flush()
}

fn read_requests(file: &[u8]) -> Parsed<Vec<Vec<u8>>> {
    let mut source = Source(file);
    let count = source.mark(REQUESTS_MARK)?;
    let requests = (0..count).map(|_| source.bytes()).collect::<Parsed<Vec<Vec<u8>>>>()?;
    source.ends()?;
    Ok(requests)
}

fn read_counts(file: &[u8]) -> Parsed<Vec<Counts>> {
    let mut source = Source(file);
    let count = source.mark(COUNTS_MARK)?;
    let mut counts = Vec::new();
    for _ in 0..count {
        let mut one = Counts::default();
        for number in &mut one {
            *number = source.number()?;
        }
        counts.push(one);
    }
    source.ends()?;
    Ok(counts)
}

/// A run in which hardly any request is readable, or nearly all are, compares too little.
fn compare(requests: &[Vec<u8>], given: &[Counts]) -> Result<bool, String> {
    if requests.len() != given.len() {
        println!("{} requests, {} counts", requests.len(), given.len());
        return Ok(false);
    }
    let own: Vec<Counts> = requests.iter().map(|request| counts(request)).collect();
    let readable = own.iter().filter(|own| own[0] == 0).count();
    if let Some(place) = (0..own.len()).find(|&place| own[place] != given[place]) {
        println!("request {place}: {}", requests[place].escape_ascii());
        println!("second: {:?}\ngiven:  {:?}", own[place], given[place]);
        return Ok(false);
    }
    println!("{} requests, {readable} readable, no difference", requests.len());
    Ok(10 * readable > requests.len() && 10 * readable < 9 * requests.len())
}
