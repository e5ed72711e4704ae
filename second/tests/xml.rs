//! Operators' XML (change request 3): texts with answers taken by hand, the place of number 14 against a reader of another kind,
//! and what every image written must be.

mod descent;

use second::image;
use second::maker::operators::{criteria, damaged, text};
use second::maker::random::Random;
use second::maker::texts;
use second::pattern;
use second::token::is_token;
use second::twist::ALL;
use second::xml::criteria::{self as written, Criterion, Row};
use second::xml::reader::{Reader, TEXT_MOST};
use second::xml::{answer, Answer};
use std::collections::BTreeSet;

fn short(answer: &Answer) -> (u32, u32, u32) {
    (answer.refusal, answer.place, answer.length)
}

/// The place of number 14, if a text gets it.
fn place(reader: &Reader, text: &[u8]) -> Option<usize> {
    reader.read(text).err()
}

#[test]
fn fixed_texts() {
    let reader = Reader::new();
    for case in texts::cases() {
        let given = answer(&reader, &case.text, &case.room_before());
        let right = case.answer();
        assert_eq!(short(&given), short(&right), "{}", case.label);
        assert!(given.room == right.room, "{}: the room", case.label);
    }
}

/// The other reader is held against the places taken by hand too.
#[test]
fn fixed_texts_by_descent() {
    for case in texts::cases().iter().filter(|case| case.text.len() <= TEXT_MOST) {
        let right = case.answer();
        let place = (right.refusal == 14).then_some(right.place as usize);
        assert_eq!(descent::place(&case.text), place, "{}", case.label);
    }
}

/// Those marked H in the readings.
const MARKED: &[&str] = &["X1", "X2", "X4", "X5", "X7", "X13", "X20", "X21", "Y1", "Y2", "Y2b", "Y3", "Y7"];

#[test]
fn every_marked_point_has_a_text_and_a_twist() {
    let cases = texts::cases();
    for point in MARKED {
        let prefix = format!("{point}:");
        assert!(cases.iter().any(|case| case.label.starts_with(&prefix)), "{point}");
        assert!(ALL.iter().any(|(_, text)| text.starts_with(&prefix)), "{point}");
    }
    let places: BTreeSet<&[u8]> =
        cases.iter().filter(|case| case.answer().refusal == 14).map(|case| &case.text[..]).collect();
    assert!(places.len() >= 40, "{}", places.len());
}

/// Each element, a comment, an entity and `<?`, and no more.
const SAMPLE: &[u8] = b"<?a?><InitialFilterCriteria><Priority>5</Priority><TriggerPoint>\
<ConditionTypeCNF>0</ConditionTypeCNF><SPT><ConditionNegated>1</ConditionNegated><Group>0</Group><SIPHeader>\
<Header>a&amp;</Header><Content>b</Content></SIPHeader></SPT><SPT> <Group>0</Group><Method>A</Method>\
<RegistrationType>0</RegistrationType><RegistrationType>1</RegistrationType><!--a-b--></SPT></TriggerPoint>\
<ApplicationServer><ServerName>s</ServerName><DefaultHandling>1</DefaultHandling><ServiceInfo></ServiceInfo>\
</ApplicationServer><ProfilePartIndicator>1</ProfilePartIndicator></InitialFilterCriteria>";

/// All bytes behind every beginning of a sample: the place is that byte's exactly if no text of the subset goes on with it.
#[test]
fn every_byte_at_every_place() {
    let reader = Reader::new();
    let mut wrong = 0;
    for at in 0..=SAMPLE.len() {
        let mut text = SAMPLE[..at].to_vec();
        text.push(0);
        for byte in 0..=255 {
            text[at] = byte;
            let goes_on = descent::read(&text) != Err(descent::Stop::Wrong(at));
            let given = place(&reader, &text);
            assert_eq!(given != Some(at), goes_on, "{at} {byte}");
            assert!(given.is_none_or(|place| place == at || place == at + 1), "{at} {byte}");
            wrong += usize::from(!goes_on);
        }
    }
    assert!(wrong > 50_000, "{wrong}");
}

/// The beginning before the place goes on, and with all of it the other reader agrees.
fn check_place(reader: &Reader, text: &[u8]) -> Option<usize> {
    let given = place(reader, text);
    assert_eq!(given, descent::place(text), "{}", text.escape_ascii());
    let begins = &text[..given.unwrap_or(text.len())];
    let whole = descent::completed(begins);
    let whole = whole.unwrap_or_else(|| panic!("{} goes on", begins.escape_ascii()));
    assert!(whole.starts_with(begins) && place(reader, &whole).is_none(), "{}", whole.escape_ascii());
    given
}

#[test]
fn a_sample_cut_at_every_byte() {
    let reader = Reader::new();
    let whole = (0..=SAMPLE.len()).filter(|&end| check_place(&reader, &SAMPLE[..end]).is_none()).count();
    // The empty text, `<?a?>` and the sample itself.
    assert_eq!(whole, 3);
}

/// Every byte lost, doubled, or another: the text behind it as it was.
#[test]
fn a_sample_damaged_at_every_byte() {
    let reader = Reader::new();
    let mut refused = 0;
    for at in 0..SAMPLE.len() {
        for other in
            [&b""[..], &[SAMPLE[at]; 2], b"<", b">", b"/", b"&", b" ", b"-", b"0", b"a", b"\0", b"\xFF"]
        {
            let text = [&SAMPLE[..at], other, &SAMPLE[at + 1..]].concat();
            refused += usize::from(check_place(&reader, &text).is_some());
        }
    }
    assert!(refused > 10 * SAMPLE.len(), "{refused}");
}

#[test]
fn random_texts_and_damages() {
    let reader = Reader::new();
    let mut random = Random::new(3);
    let (mut refused, mut taken) = (0, 0);
    for _ in 0..400 {
        let wanted = criteria(&mut random);
        let text = text(&mut random, &wanted);
        let leaves = reader.read(&text).unwrap_or_else(|place| panic!("{place} {}", text.escape_ascii()));
        assert_eq!(written::criteria(&leaves), wanted, "{}", text.escape_ascii());
        for _ in 0..20 {
            match check_place(&reader, &damaged(&mut random, &text)) {
                Some(_) => refused += 1,
                None => taken += 1,
            }
        }
    }
    assert!(refused > 4_000 && taken > 500, "{refused} {taken}");
}

/// The number that the image of these criteria gets first, by a list of what document 01 asks in the order of its fields.
fn first_fault(criteria: &[Criterion]) -> Option<u32> {
    let rows = || criteria.iter().flat_map(|criterion| &criterion.rows);
    let strings: BTreeSet<&[u8]> = strings_in_order(criteria).into_iter().collect();
    let mut faults = vec![(strings.len() > 1_024, 4)];
    faults.extend(strings.iter().map(|string| (string.len() > 1_024, 4)));
    faults.extend(rows().flat_map(row_faults));
    faults.extend(rows().flat_map(|row| &row.groups).map(|&group| (group > 65_535, 4)));
    faults.extend(rows().map(|row| (row.groups.iter().collect::<BTreeSet<_>>().len() > 8, 4)));
    faults.push((criteria.len() > 64, 4));
    for (number, criterion) in criteria.iter().enumerate() {
        let earlier = criteria[..number].iter().any(|earlier| earlier.priority == criterion.priority);
        let above = |value: Option<u64>| value.is_some_and(|value| value > 1);
        faults.extend([
            (criterion.priority > 4_294_967_295, 4),
            (earlier, 6),
            (above(criterion.part), 4),
            (above(criterion.cnf), 4),
            (criterion.rows.len() > 32, 4),
            (criterion.server.is_empty(), 5),
            (above(criterion.handling), 4),
        ]);
    }
    faults.iter().find(|(fault, _)| *fault).map(|&(_, number)| number)
}

fn row_faults(row: &Row) -> [(bool, u32); 4] {
    let refused = |string: &[u8]| pattern::read(string).is_none();
    let first = match row.kind {
        0 => (row.string.is_empty(), 5),
        1 => (!is_token(&row.string), 5),
        3 => (row.case > 3, 4),
        _ => (refused(&row.string), 5),
    };
    let content = row.content.as_deref().is_some_and(refused);
    let types = row.types.iter().any(|&kind| kind > 2);
    [(row.negated.is_some_and(|negated| negated > 1), 4), first, (content, 5), (types, 4)]
}

/// Each string where the text first uses it.
fn strings_in_order(criteria: &[Criterion]) -> Vec<&[u8]> {
    let mut strings: Vec<&[u8]> = Vec::new();
    for criterion in criteria {
        let mut uses: Vec<&[u8]> = Vec::new();
        for row in &criterion.rows {
            if row.kind != 3 {
                uses.push(&row.string);
            }
            uses.extend(row.content.as_deref());
        }
        uses.push(&criterion.server);
        uses.extend(criterion.information.as_deref());
        for string in uses {
            if !strings.contains(&string) {
                strings.push(string);
            }
        }
    }
    strings
}

/// Takes numbers and bytes off the front of an image.
struct Front<'a>(&'a [u8]);

impl<'a> Front<'a> {
    fn bytes(&mut self, count: usize) -> &'a [u8] {
        let (taken, rest) = self.0.split_at(count);
        self.0 = rest;
        taken
    }

    fn number(&mut self, width: usize) -> usize {
        self.bytes(width).iter().fold(0, |number, &byte| number * 256 + usize::from(byte))
    }
}

/// The strings and the criteria that an image holds.
fn read_back(image: &[u8]) -> (Vec<Vec<u8>>, Vec<Criterion>) {
    let mut front = Front(&image[1..]);
    let mut strings: Vec<Vec<u8>> = Vec::new();
    for _ in 0..front.number(2) {
        let length = front.number(2);
        strings.push(front.bytes(length).to_vec());
    }
    let string = |index: usize| (index != 65_535).then(|| strings[index].clone());
    let mut rows: Vec<Row> = Vec::new();
    for _ in 0..front.number(2) {
        let (negated, kind) = (Some(front.number(1) as u64), front.number(1) as u8);
        let (first, second, set) = (front.number(2), front.number(2), front.number(1));
        rows.push(Row {
            negated,
            kind,
            string: if kind == 3 { Vec::new() } else { strings[first].clone() },
            case: if kind == 3 { first as u64 } else { 0 },
            content: string(second),
            types: (0..3).filter(|bit| set >> bit & 1 == 1).collect(),
            groups: Vec::new(),
        });
    }
    for _ in 0..front.number(2) {
        let row = front.number(2);
        rows[row].groups.push(front.number(2) as u64);
    }
    let mut criteria = Vec::new();
    let present = |value: usize| (value != 2).then_some(value as u64);
    for _ in 0..front.number(2) {
        let (priority, part, form) = (front.number(4) as u64, front.number(1), front.number(1));
        let (first, count, server) = (front.number(2), front.number(2), front.number(2));
        let (handling, information) = (front.number(1), front.number(2));
        criteria.push(Criterion {
            priority,
            cnf: present(form),
            rows: rows[first..first + count].to_vec(),
            server: strings[server].clone(),
            handling: present(handling),
            information: string(information),
            part: present(part),
        });
    }
    assert!(front.0.is_empty() && rows.len() == criteria.iter().map(|of| of.rows.len()).sum::<usize>());
    (strings, criteria)
}

/// As an image can hold them: groups and types sorted and once, negation written out.
fn as_stored(criteria: &[Criterion]) -> Vec<Criterion> {
    let once = |numbers: &[u64]| numbers.iter().copied().collect::<BTreeSet<u64>>().into_iter().collect();
    let mut criteria = criteria.to_vec();
    for row in criteria.iter_mut().flat_map(|criterion| &mut criterion.rows) {
        row.negated = Some(row.negated.unwrap_or(0));
        row.groups = once(&row.groups);
        row.types = once(&row.types);
    }
    criteria
}

/// "The image written is always one that document 01 accepts", and it has the criteria of the text.
#[test]
fn images_read_back() {
    let reader = Reader::new();
    let mut random = Random::new(4);
    let mut answers = [0; 15];
    for _ in 0..4_000 {
        let wanted = criteria(&mut random);
        let text = text(&mut random, &wanted);
        let before: Vec<u8> = (0..*random.pick(&[100, 2_000])).map(|place| place as u8 | 0x80).collect();
        let Answer { refusal, place, length, room } = answer(&reader, &text, &before);
        answers[refusal as usize] += 1;
        assert_eq!(place, 0);
        if refusal != 0 {
            assert!(length == 0 && room == before);
            assert_eq!(first_fault(&wanted).unwrap_or(12), refusal, "{}", text.escape_ascii());
            continue;
        }
        let (image, rest) = room.split_at(length as usize);
        assert!(first_fault(&wanted).is_none() && rest == &before[length as usize..]);
        assert!(image::read(image).is_ok());
        let (strings, held) = read_back(image);
        assert_eq!(held, as_stored(&wanted), "{}", text.escape_ascii());
        assert_eq!(strings, strings_in_order(&wanted));
    }
    let [taken, _, _, _, four, five, six, .., twelve, _, _] = answers;
    assert!(taken > 1_000 && four > 100 && five > 40 && six > 20 && twelve > 20, "{answers:?}");
}
