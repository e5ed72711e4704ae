//! Operators' texts with their answers, each taken by hand from change request 3 and the readings of it.

use super::draft::{case_row, with_set, CriterionDraft, Draft, RowDraft, ABSENT};
use crate::xml::Answer;

pub struct Fixed {
    pub label: String,
    pub text: Vec<u8>,
    /// How many bytes of room are lent.
    pub room: usize,
    pub right: Right,
}

#[derive(Clone)]
pub enum Right {
    Image(Vec<u8>),
    Refused(u32, usize),
}

/// More than an image may have.
const ENOUGH: usize = 40_000;

impl Fixed {
    fn new(label: &str, text: &str, right: Right) -> Fixed {
        Fixed { label: label.to_string(), text: bytes(text), room: ENOUGH, right }
    }

    fn with_room(self, room: usize) -> Fixed {
        Fixed { room, ..self }
    }

    /// No two places that stand near each other hold the same byte.
    pub fn room_before(&self) -> Vec<u8> {
        (0..self.room).map(|place| 0xC0 | place as u8 & 0x3F).collect()
    }

    pub fn answer(&self) -> Answer {
        let mut room = self.room_before();
        match &self.right {
            Right::Refused(refusal, place) => {
                Answer { refusal: *refusal, place: *place as u32, length: 0, room }
            }
            Right::Image(image) => {
                room[..image.len()].copy_from_slice(image);
                Answer { refusal: 0, place: 0, length: image.len() as u32, room }
            }
        }
    }
}

/// Each character is the byte of its number.
pub fn bytes(text: &str) -> Vec<u8> {
    text.chars().map(|letter| u8::try_from(u32::from(letter)).expect("a byte")).collect()
}

pub fn cases() -> Vec<Fixed> {
    let mut cases: Vec<Fixed> = places::marked().iter().map(|(label, text)| at_mark(label, text)).collect();
    cases.extend(long_texts());
    cases.extend(nothing());
    cases.extend(images::cases());
    cases.extend(numbers::cases());
    cases.extend(limits::cases());
    cases.extend(limits::rooms());
    cases
}

/// The text without its `|`, refused with 14 there.
fn at_mark(label: &str, marked: &str) -> Fixed {
    let place = bytes(marked).iter().position(|&byte| byte == b'|').expect("a mark");
    Fixed::new(label, &marked.replacen('|', "", 1), Right::Refused(14, place))
}

fn long_texts() -> Vec<Fixed> {
    let text = |label, text: String, place| Fixed::new(label, &text, Right::Refused(14, place));
    vec![
        text("X1: 65,536 bytes, the first wrong", format!("x{}", " ".repeat(65_535)), 65_535),
        text("X1: 65,536 bytes, the last wrong", format!("{}x", " ".repeat(65_535)), 65_535),
        text("X1: 65,536 blanks", " ".repeat(65_536), 65_535),
        text("X1: 70,000 bytes, the first wrong", format!("x{}", " ".repeat(69_999)), 65_535),
        text("X1: 65,535 bytes, the first wrong", format!("x{}", " ".repeat(65_534)), 0),
        text("X1: 65,535 bytes, the last wrong", format!("{}x", " ".repeat(65_534)), 65_534),
        text("X2: 65,534 blanks and `<`", format!("{}<", " ".repeat(65_534)), 65_535),
        text("X2: a comment not closed in 65,535 bytes", format!("<!--{}", "-".repeat(65_531)), 65_535),
        text("X2: a criterion begun at the end", format!("{}{C}", " ".repeat(65_500)), 65_523),
        text("X2: the same, then wrong", format!("{}{C}x", " ".repeat(65_500)), 65_523),
    ]
}

/// "The empty profile is `01 0000 0000 0000 0000`."
fn nothing() -> Vec<Fixed> {
    let texts: [(&str, &str); 15] = [
        ("X18: the empty text", ""),
        ("X18: blanks alone", " \t\r\n"),
        ("X18: comments alone", "<!--a--><!-- <InitialFilterCriteria> -->"),
        ("X18: `<?` alone", "<?xml version=\"1.0\" encoding='UTF-8'?>"),
        ("X18: all of them", "<?xml?>\r\n<!--a-->\n"),
        ("X5: `<!---->`", "<!---->"),
        ("X5: `<!-->` that is closed later", "<!--> -->"),
        ("X5: `<!--->` that is closed later", "<!--->-->"),
        ("X6: a comment with five dashes", "<!----->"),
        ("X6: `--` inside, `--->` at the end", "<!-- -- --->"),
        ("X6: `--!>` ends nothing", "<!-- --!> -- > ->-->"),
        ("X7: `<??>`", "<??>"),
        ("X7: `<?>` that is closed later", "<?>?>"),
        ("X7: `<???>`", "<???>"),
        ("X7: any bytes inside", "<? \0\u{FF}<!-- ? > & ?a?>"),
    ];
    let empty = || Right::Image(vec![1, 0, 0, 0, 0, 0, 0, 0, 0]);
    let mut cases: Vec<Fixed> = texts.iter().map(|(label, text)| Fixed::new(label, text, empty())).collect();
    cases.push(Fixed::new("X1: 65,535 blanks", &" ".repeat(65_535), empty()));
    cases
}

// Parts of texts, whole ones and beginnings.
const C: &str = "<InitialFilterCriteria>";
const C_END: &str = "</InitialFilterCriteria>";
const P: &str = "<Priority>5</Priority>";
const T: &str = "<TriggerPoint><ConditionTypeCNF>0</ConditionTypeCNF>";
const T_END: &str = "</TriggerPoint>";
const G: &str = "<Group>0</Group>";
const N: &str = "<ConditionNegated>1</ConditionNegated>";
const M: &str = "<Method>INVITE</Method>";
const R: &str = "<RegistrationType>0</RegistrationType>";
const S: &str = "<SPT><Group>0</Group><Method>INVITE</Method></SPT>";
const V: &str = "<ServerName>sip:a</ServerName>";
const H: &str = "<DefaultHandling>0</DefaultHandling>";
const A: &str = "<ApplicationServer><ServerName>sip:a</ServerName></ApplicationServer>";
const I: &str = "<ProfilePartIndicator>0</ProfilePartIndicator>";

/// A whole criterion from its parts.
fn criterion(priority: &str, inside: &str) -> String {
    format!("{C}<Priority>{priority}</Priority>{inside}{C_END}")
}

/// A criterion of priority 5 with these rows and the server `sip:a`.
fn of_rows(rows: &str) -> String {
    criterion("5", &format!("{T}{rows}{T_END}{A}"))
}

fn row(inside: &str) -> String {
    format!("<SPT>{inside}</SPT>")
}

mod places {
    use super::{A, C, C_END, G, H, I, M, N, P, R, S, T, T_END, V};

    /// Number 14 at the `|`, which is no byte of the text.
    pub fn marked() -> Vec<(&'static str, String)> {
        let mut marked = of_criteria();
        marked.extend(of_triggers());
        marked.extend(of_servers());
        marked.extend(of_tags());
        marked.extend(of_values());
        marked.extend(between());
        marked
    }

    fn of_criteria() -> Vec<(&'static str, String)> {
        vec![
            ("Priority missing, nothing else", format!("{C}<|/InitialFilterCriteria>")),
            ("Priority missing, TriggerPoint there", format!("{C}<|TriggerPoint>")),
            ("Priority missing, ProfilePartIndicator there", format!("{C}<Pr|ofilePartIndicator>")),
            ("Priority twice", format!("{C}{P}<|Priority>")),
            ("Priority behind ApplicationServer", format!("{C}{P}{A}<Pr|iority>")),
            ("ApplicationServer missing", format!("{C}{P}<|/InitialFilterCriteria>")),
            (
                "ApplicationServer missing behind a trigger",
                format!("{C}{P}{T}{S}{T_END}<|/InitialFilterCriteria>"),
            ),
            ("ApplicationServer twice", format!("{C}{P}{A}<|ApplicationServer>")),
            ("ApplicationServer first", format!("{C}<|ApplicationServer>")),
            ("TriggerPoint twice", format!("{C}{P}{T}{S}{T_END}<|TriggerPoint>")),
            ("TriggerPoint behind ApplicationServer", format!("{C}{P}{A}<|TriggerPoint>")),
            ("X19: ProfilePartIndicator before ApplicationServer", format!("{C}{P}<|ProfilePartIndicator>")),
            ("ProfilePartIndicator twice", format!("{C}{P}{A}{I}<|ProfilePartIndicator>")),
            ("ApplicationServer behind ProfilePartIndicator", format!("{C}{P}{A}{I}<|ApplicationServer>")),
            ("a criterion in a criterion", format!("{C}<|InitialFilterCriteria>")),
            ("an end tag behind the last criterion", format!("{C}{P}{A}{C_END}<|/InitialFilterCriteria>")),
            ("X17: IMSSubscription", "<I|MSSubscription>".to_string()),
            ("X17: ServiceProfile", "<|ServiceProfile>".to_string()),
            ("X17: SharedIFCSetID", format!("{C}{P}{A}{C_END}<|SharedIFCSetID>1</SharedIFCSetID>")),
            ("X17: Extension of a criterion", format!("{C}{P}{A}{I}<|Extension>")),
            ("cut behind a criterion's parts", format!("{C}{P}{A}|")),
            ("cut before the last `>`", format!("{C}{P}{A}</InitialFilterCriteria|")),
            ("cut in a second criterion", format!("{C}{P}{A}{C_END}<|")),
        ]
    }

    fn of_triggers() -> Vec<(&'static str, String)> {
        let row = format!("{C}{P}{T}<SPT>");
        let header = format!("{row}{G}<SIPHeader>");
        let line = format!("{row}{G}<SessionDescription>");
        vec![
            ("ConditionTypeCNF missing, nothing else", format!("{C}{P}<TriggerPoint><|/TriggerPoint>")),
            ("ConditionTypeCNF missing, SPT there", format!("{C}{P}<TriggerPoint><|SPT>")),
            ("ConditionTypeCNF twice", format!("{C}{P}{T}<|ConditionTypeCNF>")),
            ("ConditionTypeCNF behind SPT", format!("{C}{P}{T}{S}<|ConditionTypeCNF>")),
            ("ConditionNegated for ConditionTypeCNF", format!("{C}{P}<TriggerPoint><Condition|Negated>")),
            ("SPT missing", format!("{C}{P}{T}<|/TriggerPoint>")),
            ("X17: SPI of source document 000", format!("{C}{P}{T}<SP|I>")),
            ("X4: `</SPT>` without Group", format!("{row}<|/SPT>")),
            ("Group missing, Method there", format!("{row}<|Method>")),
            ("Group missing behind ConditionNegated", format!("{row}{N}<|/SPT>")),
            ("Group behind Method", format!("{row}{G}{M}<|Group>")),
            ("X19: ConditionNegated behind Group", format!("{row}{G}<|ConditionNegated>")),
            ("ConditionNegated twice", format!("{row}{N}<|ConditionNegated>")),
            ("none of the five", format!("{row}{G}<|/SPT>")),
            ("none of the five, RegistrationType there", format!("{row}{G}<Re|gistrationType>")),
            ("an SPT in an SPT", format!("{row}{G}<S|PT>")),
            ("Method twice", format!("{row}{G}{M}<|Method>")),
            ("RequestURI behind Method", format!("{row}{G}{M}<Re|questURI>")),
            ("SessionCase behind Method", format!("{row}{G}{M}<|SessionCase>")),
            ("neither SessionCase nor SessionDescription", format!("{row}{G}<Session|Name>")),
            ("X20: a third RegistrationType", format!("{row}{G}{M}{R}{R}<|RegistrationType>")),
            ("X17: Extension of an SPT", format!("{row}{G}{M}<|Extension>")),
            ("Header missing", format!("{header}<|/SIPHeader>")),
            ("Header missing, Content there", format!("{header}<|Content>")),
            ("Header missing, Line there", format!("{header}<|Line>")),
            ("Header twice", format!("{header}<Header>a</Header><|Header>")),
            ("Header behind Content", format!("{header}<Header>a</Header><Content>a</Content><|Header>")),
            ("Content twice", format!("{header}<Header>a</Header><Content>a</Content><|Content>")),
            ("Line missing", format!("{line}<|/SessionDescription>")),
            ("Line missing, Content there", format!("{line}<|Content>")),
            ("Line missing, Header there", format!("{line}<|Header>")),
            ("Line twice", format!("{line}<Line>a</Line><|Line>")),
            ("Content of a line twice", format!("{line}<Line>a</Line><Content>a</Content><|Content>")),
            ("Content in an SPT", format!("{row}{G}<|Content>")),
        ]
    }

    fn of_servers() -> Vec<(&'static str, String)> {
        let server = format!("{C}{P}<ApplicationServer>");
        let information = "<ServiceInfo>x</ServiceInfo>";
        vec![
            ("ServerName missing, nothing else", format!("{server}<|/ApplicationServer>")),
            ("ServerName missing, DefaultHandling there", format!("{server}<|DefaultHandling>")),
            ("ServerName missing, ServiceInfo there", format!("{server}<Serv|iceInfo>")),
            ("ServerName twice", format!("{server}{V}<Serv|erName>")),
            ("ServerName behind DefaultHandling", format!("{server}{V}{H}<Serv|erName>")),
            ("DefaultHandling twice", format!("{server}{V}{H}<|DefaultHandling>")),
            (
                "X19: DefaultHandling behind ServiceInfo",
                format!("{server}{V}{information}<|DefaultHandling>"),
            ),
            ("ServiceInfo twice", format!("{server}{V}{information}<|ServiceInfo>")),
            ("ProfilePartIndicator in ApplicationServer", format!("{server}{V}<|ProfilePartIndicator>")),
        ]
    }

    fn of_tags() -> Vec<(&'static str, String)> {
        vec![
            ("X4: `<X/>`", "<InitialFilterCriteria|/>".to_string()),
            ("X4: an attribute", "<InitialFilterCriteria| a='b'>".to_string()),
            ("X4: a blank behind the name", "<InitialFilterCriteria| >".to_string()),
            ("X4: a line end behind the name", format!("{C}<Priority|\n>5")),
            ("X4: a blank before the name", "<| InitialFilterCriteria>".to_string()),
            ("X4: a blank in an end tag", format!("{C}<Priority>5</Priority| >")),
            ("X4: a blank behind `</`", format!("{C}<Priority>5</| Priority>")),
            ("X4: `<Priority/>`", format!("{C}<Priority|/>")),
            ("X4: `<ServiceInfo/>`", format!("{C}{P}<ApplicationServer>{V}<ServiceInfo|/>")),
            ("X4: small letters", "<|initialfiltercriteria>".to_string()),
            ("X4: a small letter inside", "<Initial|filterCriteria>".to_string()),
            ("X4: a name that goes on", "<InitialFilterCriteria|s>".to_string()),
            ("X4: a name that is cut", "<InitialFilter|>".to_string()),
            ("X4: another end tag", format!("{C}<Priority>5</|Group>")),
            ("X4: a name with its space", "<|x:InitialFilterCriteria>".to_string()),
            ("X4: `<` twice", "<|<InitialFilterCriteria>".to_string()),
        ]
    }

    fn of_values() -> Vec<(&'static str, String)> {
        let number = format!("{C}<Priority>");
        let string = format!("{C}{P}{T}<SPT>{G}<Method>");
        vec![
            ("X13: no digit", format!("{number}|</Priority>")),
            ("X12: a blank before a number", format!("{number}| 5</Priority>")),
            ("X12: a blank behind a number", format!("{number}5| </Priority>")),
            ("X12: a line end behind a number", format!("{number}5|\r\n</Priority>")),
            ("a sign", format!("{number}|+5</Priority>")),
            ("a minus sign", format!("{number}|-5</Priority>")),
            ("a point", format!("{number}5|.0</Priority>")),
            ("a hexadecimal number", format!("{number}0|x5</Priority>")),
            (
                "a word for a boolean",
                format!("{C}{P}<TriggerPoint><ConditionTypeCNF>|true</ConditionTypeCNF>"),
            ),
            ("X11: a comment before a number", format!("{number}|<!--a-->5</Priority>")),
            ("X11: a comment behind a number", format!("{number}5<|!--a--></Priority>")),
            ("X14: an entity for a number", format!("{number}|&lt;</Priority>")),
            ("X14: an entity behind a digit", format!("{number}5|&amp;</Priority>")),
            ("cut in a number", format!("{number}5|")),
            ("cut before a number", format!("{number}|")),
            ("X11: a comment in a string", format!("{string}INVITE<|!----></Method>")),
            ("X11: a comment first in a string", format!("{string}<|!---->INVITE</Method>")),
            ("an element in a string", format!("{string}a<|b></Method>")),
            ("CDATA in a string", format!("{string}<|![CDATA[a]]></Method>")),
            ("`<?` in a string", format!("{string}<|?a?></Method>")),
            ("X15: a number for a character", format!("{string}&|#60;</Method>")),
            ("X15: capital letters", format!("{string}&|LT;</Method>")),
            ("X15: `&` alone", format!("{string}&| b</Method>")),
            ("X15: `&` and `;`", format!("{string}&|;</Method>")),
            ("X15: `&` before the end tag", format!("{string}&|</Method>")),
            ("X15: `&am;`", format!("{string}&am|;</Method>")),
            ("X15: `&ap` and no `o`", format!("{string}&ap|s;</Method>")),
            ("X15: `&lt` without `;`", format!("{string}&lt| </Method>")),
            ("X15: `&nbsp;`", format!("{string}&|nbsp;</Method>")),
            ("X15: cut in an entity", format!("{string}&quo|")),
            ("X15: `&&`", format!("{string}&|&amp;</Method>")),
            ("cut in a string", format!("{string}INVITE|")),
        ]
    }

    fn between() -> Vec<(&'static str, String)> {
        let text = str::to_string;
        vec![
            ("text first", text("|a")),
            ("text behind a tag", format!("{C}|a")),
            ("text behind a simple element", format!("{C}{P}|5")),
            ("text at the end", format!("{C}{P}{A}{C_END}|a")),
            ("byte 0 at the end", format!("{C}{P}{A}{C_END}\n|\0")),
            ("X14: an entity between elements", format!("{C}|&amp;")),
            ("X14: an entity in a tag", "<|&lt;".to_string()),
            ("X9: byte 11", text("|\u{B}")),
            ("X9: byte 12", format!("{C}|\u{C}")),
            ("X9: byte 133", format!("{C} |\u{85}")),
            ("X9: byte 160", format!("{C}\t|\u{A0}")),
            ("X9: a byte order mark", text("|\u{EF}\u{BB}\u{BF}")),
            ("DOCTYPE", text("<!|DOCTYPE a>")),
            ("DOCTYPE behind `<?`", text("<?xml?>\n<!|DOCTYPE a>")),
            ("CDATA between elements", format!("{C}<!|[CDATA[ ]]>")),
            ("`<!-` and no dash", text("<!-|a-->")),
            ("`<!` alone", text("<!|")),
            ("`<!-` alone", text("<!-|")),
            ("a comment not closed", text("<!-- a --|")),
            ("X5: `<!-->`", text("<!-->|")),
            ("X5: `<!--->`", text("<!--->|")),
            ("X5: `<!-->` and a criterion", format!("<!-->{C}{P}{A}{C_END}|")),
            ("X6: behind the first `-->`", text("<!-- --> |-->")),
            ("X7: `<?>`", text("<?>|")),
            ("X7: `<?` alone", text("<?|")),
            ("X7: `<?` with `?` at the end", text("<?a?|")),
            ("X7: `<?>` and a criterion", format!("<?>{C}{P}{A}{C_END}|")),
            ("X7: behind the first `?>`", text("<?a?>|?>")),
            ("X8: a second `<?`", text("<?a?><|?b?>")),
            ("X8: `<?` behind a blank", text(" <|?a?>")),
            ("X8: `<?` behind a line end", text("\n<|?a?>")),
            ("X8: `<?` behind a comment", text("<!----><|?a?>")),
            ("X8: `<?` in a criterion", format!("{C}<|?a?>")),
            ("`<` alone", text("<|")),
            ("`</` first", text("<|/InitialFilterCriteria>")),
        ]
    }
}

/// An image as it is to be written: nothing of it is taken from a text.
fn image(
    strings: &[&str],
    rows: &[RowDraft],
    memberships: &[(u16, u16)],
    criteria: &[CriterionDraft],
) -> Right {
    let strings = strings.iter().map(|string| bytes(string)).collect();
    let (rows, memberships, criteria) = (rows.to_vec(), memberships.to_vec(), criteria.to_vec());
    Right::Image(Draft { strings, rows, memberships, criteria, ..Draft::new() }.bytes())
}

/// Without trigger, part, default handling and service information.
fn bare(priority: u32, server: u16) -> CriterionDraft {
    CriterionDraft {
        priority,
        part: 2,
        form: 2,
        first_row: 0,
        row_count: 0,
        server,
        handling: 2,
        information: ABSENT,
    }
}

fn triggered(priority: u32, form: u8, rows: (u16, u16), server: u16) -> CriterionDraft {
    CriterionDraft { form, first_row: rows.0, row_count: rows.1, ..bare(priority, server) }
}

fn kind(kind: u8, first: u16, second: u16) -> RowDraft {
    RowDraft { negated: 0, kind, first, second, set: 0 }
}

mod images {
    use super::*;

    pub fn cases() -> Vec<Fixed> {
        let mut cases = wholes();
        cases.extend(orders());
        cases.extend(rows());
        cases.extend(values());
        cases.extend(strings());
        cases
    }

    /// Everything that a criterion can have, one part after the other.
    const EVERYTHING: &[&str] = &[
        "<InitialFilterCriteria>",
        "<Priority>7</Priority>",
        "<TriggerPoint>",
        "<ConditionTypeCNF>1</ConditionTypeCNF>",
        "<SPT>",
        "<ConditionNegated>1</ConditionNegated>",
        "<Group>2</Group>",
        "<Group>1</Group>",
        "<RequestURI>sip:b</RequestURI>",
        "</SPT>",
        "<SPT>",
        "<ConditionNegated>0</ConditionNegated>",
        "<Group>1</Group>",
        "<Method>REGISTER</Method>",
        "<RegistrationType>2</RegistrationType>",
        "<RegistrationType>1</RegistrationType>",
        "</SPT>",
        "<SPT>",
        "<Group>3</Group>",
        "<SIPHeader>",
        "<Header>From</Header>",
        "<Content>joe</Content>",
        "</SIPHeader>",
        "</SPT>",
        "<SPT>",
        "<Group>3</Group>",
        "<SessionCase>3</SessionCase>",
        "</SPT>",
        "<SPT>",
        "<Group>3</Group>",
        "<SessionDescription>",
        "<Line>m</Line>",
        "<Content>audio</Content>",
        "</SessionDescription>",
        "<RegistrationType>0</RegistrationType>",
        "</SPT>",
        "</TriggerPoint>",
        "<ApplicationServer>",
        "<ServerName>sip:a</ServerName>",
        "<DefaultHandling>1</DefaultHandling>",
        "<ServiceInfo>i</ServiceInfo>",
        "</ApplicationServer>",
        "<ProfilePartIndicator>0</ProfilePartIndicator>",
        "</InitialFilterCriteria>",
    ];

    fn everything() -> Right {
        image(
            &["sip:b", "REGISTER", "From", "joe", "m", "audio", "sip:a", "i"],
            &[
                RowDraft { negated: 1, kind: 0, first: 0, second: ABSENT, set: 0 },
                RowDraft { negated: 0, kind: 1, first: 1, second: ABSENT, set: 6 },
                RowDraft { negated: 0, kind: 2, first: 2, second: 3, set: 0 },
                RowDraft { negated: 0, kind: 3, first: 3, second: ABSENT, set: 0 },
                RowDraft { negated: 0, kind: 4, first: 4, second: 5, set: 1 },
            ],
            &[(0, 1), (0, 2), (1, 1), (2, 3), (3, 3), (4, 3)],
            &[CriterionDraft {
                priority: 7,
                part: 0,
                form: 1,
                first_row: 0,
                row_count: 5,
                server: 6,
                handling: 1,
                information: 7,
            }],
        )
    }

    fn wholes() -> Vec<Fixed> {
        let example =
            b"\x01\0\x01\0\x05sip:a\0\0\0\0\0\x01\0\0\0\x05\x02\x02\0\0\0\0\0\0\x01\xFF\xFF".to_vec();
        let terminated = criterion(
            "5",
            &format!("<ApplicationServer>{V}<DefaultHandling>1</DefaultHandling></ApplicationServer>"),
        );
        let mut cases = vec![
            Fixed::new("document 01's criterion", &terminated, Right::Image(example)),
            Fixed::new("everything", &EVERYTHING.concat(), everything()),
        ];
        for between in
            [" ", "\t", "\r", "\n", "\r\n  ", "<!---->", "<!--<SPT>&a--b-->", " <!-- --->\n<!--->-->\t"]
        {
            let text = format!("{between}{}{between}", EVERYTHING.join(between));
            let label = format!("X10: between all elements {}", between.escape_default());
            cases.push(Fixed::new(&label, &text, everything()));
            cases.push(Fixed::new(&label, &format!("<?a?>{text}"), everything()));
        }
        cases
    }

    fn server(name: &str) -> String {
        format!("<ApplicationServer><ServerName>{name}</ServerName></ApplicationServer>")
    }

    fn orders() -> Vec<Fixed> {
        let header = "<SIPHeader><Header>From</Header><Content>joe</Content></SIPHeader>";
        let one =
            format!("{T}{S}{T_END}<ApplicationServer>{V}<ServiceInfo>i</ServiceInfo></ApplicationServer>");
        let other = format!("{T}{}{T_END}{}", row(&format!("{G}{header}")), server("sip:b"));
        let first = CriterionDraft { information: 2, ..triggered(9, 0, (0, 1), 1) };
        let same = format!("{T}{S}{S}{T_END}{A}");
        vec![
            Fixed::new(
                "Y1: strings in the order of the text",
                &(criterion("9", &one) + &criterion("2", &other)),
                image(
                    &["INVITE", "sip:a", "i", "From", "joe", "sip:b"],
                    &[kind(1, 0, ABSENT), kind(2, 3, 4)],
                    &[(0, 0), (1, 0)],
                    &[first, triggered(2, 0, (1, 1), 5)],
                ),
            ),
            Fixed::new(
                "Y15, Y16: by the text, not by priority; no trigger has row 0",
                &(criterion("3", &other) + &criterion("2", A) + &criterion("1", &other)),
                image(
                    &["From", "joe", "sip:b", "sip:a"],
                    &[kind(2, 0, 1), kind(2, 0, 1)],
                    &[(0, 0), (1, 0)],
                    &[triggered(3, 0, (0, 1), 2), bare(2, 3), triggered(1, 0, (1, 1), 2)],
                ),
            ),
            Fixed::new(
                "equal rows are not shared",
                &(criterion("1", &same) + &criterion("2", &same)),
                image(
                    &["INVITE", "sip:a"],
                    &[kind(1, 0, ABSENT); 4],
                    &[(0, 0), (1, 0), (2, 0), (3, 0)],
                    &[triggered(1, 0, (0, 2), 1), triggered(2, 0, (2, 2), 1)],
                ),
            ),
        ]
    }

    /// One row of the Method INVITE, in these groups and with this set.
    fn invite(groups: &[u16], set: u8) -> Right {
        let memberships: Vec<(u16, u16)> = groups.iter().map(|&group| (0, group)).collect();
        let method = with_set(kind(1, 0, ABSENT), set);
        image(&["INVITE", "sip:a"], &[method], &memberships, &[triggered(5, 0, (0, 1), 1)])
    }

    fn in_groups(groups: &[u64]) -> String {
        let groups: String = groups.iter().map(|group| format!("<Group>{group}</Group>")).collect();
        of_rows(&row(&(groups + M)))
    }

    fn rows() -> Vec<Fixed> {
        let types = |types: &[u8]| -> String {
            let types = types.iter().map(|kind| format!("<RegistrationType>{kind}</RegistrationType>"));
            of_rows(&row(&format!("{G}{M}{}", types.collect::<String>())))
        };
        let header = format!("{G}<SIPHeader><Header>a</Header></SIPHeader>{R}");
        vec![
            Fixed::new(
                "Y10: groups are sorted",
                &in_groups(&[3, 65_535, 0, 7]),
                invite(&[0, 3, 7, 65_535], 0),
            ),
            Fixed::new("Y9: a group three times", &in_groups(&[1, 2, 1, 1]), invite(&[1, 2], 0)),
            Fixed::new(
                "Y9: nine groups, eight of them different",
                &in_groups(&[8, 7, 6, 5, 4, 3, 2, 1, 8]),
                invite(&[1, 2, 3, 4, 5, 6, 7, 8], 0),
            ),
            Fixed::new("Y7: two equal types", &types(&[2, 2]), invite(&[0], 4)),
            Fixed::new("types 0 and 1", &types(&[0, 1]), invite(&[0], 3)),
            Fixed::new("types 2 and 0", &types(&[2, 0]), invite(&[0], 5)),
            Fixed::new("type 1", &types(&[1]), invite(&[0], 2)),
            Fixed::new(
                "Y8: a type of a SIPHeader",
                &of_rows(&row(&header)),
                image(
                    &["a", "sip:a"],
                    &[with_set(kind(2, 0, ABSENT), 1)],
                    &[(0, 0)],
                    &[triggered(5, 0, (0, 1), 1)],
                ),
            ),
        ]
    }

    fn values() -> Vec<Fixed> {
        let zeros = "0".repeat(5_000);
        let case = format!("<SPT>{G}<SessionCase>{zeros}3</SessionCase></SPT>");
        let many = format!("<TriggerPoint><ConditionTypeCNF>01</ConditionTypeCNF>{case}{T_END}{A}{I}");
        let cnf = CriterionDraft { part: 0, ..triggered(7, 1, (0, 1), 0) };
        let zero = format!("<ApplicationServer>{V}{H}</ApplicationServer>");
        vec![
            Fixed::new(
                "X13: leading zeros",
                &criterion("007", &many),
                image(&["sip:a"], &[case_row(3)], &[(0, 0)], &[cnf]),
            ),
            Fixed::new(
                "the largest Priority, and the smallest",
                &(criterion("4294967295", A) + &criterion("00000000000000000000000", A)),
                image(&["sip:a"], &[], &[], &[bare(u32::MAX, 0), bare(0, 0)]),
            ),
            Fixed::new(
                "Y12: all that may be absent",
                &criterion("5", A),
                image(&["sip:a"], &[], &[], &[bare(5, 0)]),
            ),
            Fixed::new(
                "DefaultHandling 0, ProfilePartIndicator 1",
                &criterion("5", &format!("{zero}<ProfilePartIndicator>1</ProfilePartIndicator>")),
                image(&["sip:a"], &[], &[], &[CriterionDraft { handling: 0, part: 1, ..bare(5, 0) }]),
            ),
        ]
    }

    fn with_information(information: &str) -> String {
        criterion(
            "5",
            &format!("<ApplicationServer>{V}<ServiceInfo>{information}</ServiceInfo></ApplicationServer>"),
        )
    }

    fn strings() -> Vec<Fixed> {
        let informed = || CriterionDraft { information: 1, ..bare(5, 0) };
        let kept = [
            ("Y13: empty ServiceInfo", "", ""),
            ("X15: the five entities", "&lt;&gt;&amp;&quot;&apos;", "<>&\"'"),
            ("X15: replaced once", "&amp;lt;&amp;amp;", "&lt;&amp;"),
            ("X16: line ends", "a\r\nb\rc\n", "a\r\nb\rc\n"),
            ("X12: blanks around a string", " \t a \n", " \t a \n"),
            (
                "X16: bytes that are no text in XML",
                "\0\u{1}\u{7F}\u{80}\u{FF}\u{C0}",
                "\0\u{1}\u{7F}\u{80}\u{FF}\u{C0}",
            ),
            ("X16: `>`, `]]>`, `-->`, `?>`", "> ]]> --> ?> /> ;#\"'", "> ]]> --> ?> /> ;#\"'"),
        ];
        let mut cases: Vec<Fixed> = Vec::new();
        for (label, written, string) in kept {
            let right = image(&["sip:a", string], &[], &[], &[informed()]);
            cases.push(Fixed::new(label, &with_information(written), right));
        }
        let method = of_rows(&row(&format!("{G}<Method>sip</Method>"))).replace("sip:a", "sip");
        let equal = "<SIPHeader><Header>a&gt;</Header><Content>a></Content></SIPHeader>";
        let one_row = |strings: &[&str], row, server| {
            image(strings, &[row], &[(0, 0)], &[triggered(5, 0, (0, 1), server)])
        };
        cases.extend([
            Fixed::new("Y14: Method and ServerName", &method, one_row(&["sip"], kind(1, 0, ABSENT), 0)),
            Fixed::new(
                "Y14: equal behind their entities",
                &of_rows(&row(&format!("{G}{equal}"))),
                one_row(&["a>", "sip:a"], kind(2, 0, 0), 1),
            ),
            Fixed::new(
                "Y14: ServiceInfo as ServerName",
                &with_information("sip:a"),
                image(&["sip:a"], &[], &[], &[CriterionDraft { information: 0, ..bare(5, 0) }]),
            ),
        ]);
        cases
    }
}

mod numbers {
    use super::*;

    pub fn cases() -> Vec<Fixed> {
        let mut cases = Vec::new();
        for (label, text, number) in single().into_iter().chain(in_pairs()) {
            cases.push(Fixed::new(label, &text, Right::Refused(number, 0)));
        }
        for (element, values) in LACKING {
            for value in *values {
                let label = format!("Y4, Y5: {element} {value}");
                cases.push(Fixed::new(&label, &with_value(element, value), Right::Refused(4, 0)));
            }
        }
        cases
    }

    /// Values that the table or the field lacks; some are allowed ones once they are cut to 8, 16, 32 or 64 bits.
    const LACKING: &[(&str, &[&str])] = &[
        ("Priority", &["4294967296", "4294967301", "18446744073709551616", "18446744073709551621"]),
        ("ConditionTypeCNF", &["2", "256", "257", "18446744073709551616"]),
        ("ConditionNegated", &["2", "256", "257", "65536", "4294967297", "18446744073709551617"]),
        ("Group", &["65536", "65537", "4294967296", "18446744073709551616"]),
        ("SessionCase", &["4", "256", "65536", "65539", "4294967296", "18446744073709551619"]),
        ("RegistrationType", &["3", "4", "256", "65536", "18446744073709551616"]),
        ("DefaultHandling", &["2", "3", "256", "257", "18446744073709551616"]),
        ("ProfilePartIndicator", &["2", "3", "256", "257", "18446744073709551616"]),
    ];

    fn with_value(element: &str, value: &str) -> String {
        let sessions =
            "<SPT><ConditionNegated>0</ConditionNegated><Group>0</Group><SessionCase>0</SessionCase>";
        let rows = format!("{sessions}{R}</SPT>");
        let whole =
            criterion("0", &format!("{T}{rows}{T_END}<ApplicationServer>{V}{H}</ApplicationServer>{I}"));
        whole.replace(&format!("<{element}>0<"), &format!("<{element}>{value}<"))
    }

    fn server(name: &str, handling: &str) -> String {
        let handling = format!("<DefaultHandling>{handling}</DefaultHandling>");
        format!("<ApplicationServer><ServerName>{name}</ServerName>{handling}</ApplicationServer>")
    }

    fn part(value: &str) -> String {
        format!("<ProfilePartIndicator>{value}</ProfilePartIndicator>")
    }

    fn single() -> Vec<(&'static str, String, u32)> {
        let header = |inside: &str| of_rows(&row(&format!("{G}<SIPHeader>{inside}</SIPHeader>")));
        let line =
            |inside: &str| of_rows(&row(&format!("{G}<SessionDescription>{inside}</SessionDescription>")));
        let test = |inside: &str| of_rows(&row(&format!("{G}{inside}")));
        vec![
            ("Y13: empty ServerName", criterion("5", &server("", "0")), 5),
            ("Y13: empty RequestURI", test("<RequestURI></RequestURI>"), 5),
            ("Y13: empty Method", test("<Method></Method>"), 5),
            ("a Method that is no token", test("<Method>IN VITE</Method>"), 5),
            ("X12: a blank around a Method", test("<Method> INVITE</Method>"), 5),
            ("Y13: empty Header", header("<Header></Header>"), 5),
            ("Y13: empty Content", header("<Header>a</Header><Content></Content>"), 5),
            ("Y13: empty Line", line("<Line></Line>"), 5),
            ("Y13: empty Content of a line", line("<Line>m</Line><Content></Content>"), 5),
            ("a Header that is no pattern", header("<Header>[z-a]</Header>"), 5),
            ("a Content that is no pattern", line("<Line>m</Line><Content>a**</Content>"), 5),
            ("a repeated Priority", criterion("5", A) + &criterion("005", A), 6),
            ("Y6: a Priority above the limit twice", criterion("4294967296", A).repeat(2), 4),
        ]
    }

    fn in_pairs() -> Vec<(&'static str, String, u32)> {
        let long = "x".repeat(1_025);
        let wrong = format!("<SPT>{G}<Method>a b</Method></SPT>");
        let pattern = format!("<SPT>{G}<SIPHeader><Header>[</Header></SIPHeader></SPT>");
        let group = format!("<SPT><Group>65536</Group>{M}</SPT>");
        let of = |rows: &str, rest: &str| format!("{T}{rows}{T_END}{rest}");
        let negated = "<ConditionNegated>2</ConditionNegated>";
        let case = format!("<SPT>{G}<SessionCase>4</SessionCase></SPT>");
        let nine: String = (0..9).map(|group| format!("<Group>{group}</Group>")).collect();
        let empty = server("", "0");
        let two = |one: &str, other: &str| criterion("5", one) + &criterion("6", other);
        vec![
            ("Y2: a long string behind a wrong pattern", two(&of(&pattern, A), &server(&long, "0")), 4),
            ("Y2: a wrong row behind an empty server", two(&empty, &of(&case, A)), 4),
            ("Y2: a wrong pattern behind a Priority", criterion("4294967296", A) + &of_rows(&pattern), 5),
            (
                "Y2: a wrong pattern behind a repeat",
                criterion("5", A).repeat(2) + &criterion("6", &of(&pattern, A)),
                5,
            ),
            ("Y2: a Group behind an empty server", two(&empty, &of(&group, A)), 4),
            ("Y2: 65 criteria and a repeat", criterion("5", A).repeat(65), 4),
            ("Y2: nine Groups and a repeat", criterion("5", A) + &of_rows(&row(&format!("{nine}{M}"))), 4),
            (
                "Y2: nine Groups and a wrong pattern later",
                of_rows(&(row(&format!("{nine}{M}")) + &pattern)),
                5,
            ),
            ("Y2b: a 5 before a 4", two(&empty, &format!("{A}{}", part("2"))), 5),
            ("Y2b: a 4 before a 5", two(&format!("{A}{}", part("2")), &empty), 4),
            ("Y2b: a 6 before a 4", criterion("5", A) + &criterion("5", &format!("{A}{}", part("2"))), 6),
            ("Y2b: a 4 before a 6", criterion("5", &server("a", "2")) + &criterion("5", A), 4),
            ("Y2b: a 5 before a 6", criterion("5", &empty) + &criterion("5", A), 5),
            ("Y2b: a 6 before a 5", criterion("5", A) + &criterion("5", &empty), 6),
            ("Y2b: a repeat before a Priority", criterion("5", A).repeat(2) + &criterion("4294967296", A), 6),
            ("Y2b: a Priority before a repeat", criterion("4294967296", A) + &criterion("5", A).repeat(2), 4),
            ("Y3: ConditionNegated, Method", of_rows(&row(&format!("{negated}{G}<Method></Method>"))), 4),
            ("Y3: SessionCase, then a Method", of_rows(&(case.clone() + &wrong)), 4),
            ("Y3: a Method, then SessionCase", of_rows(&(wrong.clone() + &case)), 5),
            (
                "Y3: RegistrationType, Method",
                of_rows(&row(&format!("{G}<Method>a b</Method><RegistrationType>3</RegistrationType>"))),
                5,
            ),
            (
                "Y3: RegistrationType, Content",
                of_rows(&row(&format!(
                    "{G}<SIPHeader><Header>a</Header><Content>[</Content></SIPHeader>\
                     <RegistrationType>3</RegistrationType>"
                ))),
                5,
            ),
            (
                "Y3: RegistrationType, the next row",
                of_rows(&(row(&format!("{G}{M}<RegistrationType>3</RegistrationType>")) + &wrong)),
                4,
            ),
            ("Y3: Group, Method", of_rows(&row("<Group>65536</Group><Method>a b</Method>")), 5),
            ("Y3: Group, the next row", of_rows(&(group.clone() + &wrong)), 5),
            ("Y3: Group, server", criterion("5", &of(&group, &empty)), 4),
            ("Y3: Priority, server", criterion("4294967296", &empty), 4),
            ("Y3: ProfilePartIndicator, server", criterion("5", &format!("{empty}{}", part("2"))), 4),
            ("Y3: ConditionTypeCNF, server", criterion("5", &of(S, &empty)).replace("CNF>0", "CNF>2"), 4),
            ("Y3: ConditionTypeCNF, row", of_rows(&wrong).replace("CNF>0", "CNF>2"), 5),
            ("Y3: DefaultHandling, server", criterion("5", &server("", "2")), 5),
            ("Y3: DefaultHandling, the next server", two(&server("a", "2"), &empty), 4),
        ]
    }
}

mod limits {
    use super::*;

    pub fn cases() -> Vec<Fixed> {
        let mut cases = counts();
        cases.extend(sizes());
        cases
    }

    /// Criteria without trigger, by rising priority.
    fn criteria(count: u32) -> String {
        (0..count).map(|priority| criterion(&priority.to_string(), A)).collect()
    }

    fn informed(length: usize) -> String {
        let information = "i".repeat(length);
        criterion(
            "5",
            &format!("<ApplicationServer>{V}<ServiceInfo>{information}</ServiceInfo></ApplicationServer>"),
        )
    }

    fn counts() -> Vec<Fixed> {
        let bares: Vec<CriterionDraft> = (0..64).map(|priority| bare(priority, 0)).collect();
        let long = CriterionDraft { information: 1, ..bare(5, 0) };
        let rows = [kind(1, 0, ABSENT); 32];
        let memberships: Vec<(u16, u16)> = (0..32).map(|row| (row, 0)).collect();
        let groups =
            |count: u16| -> String { (0..count).map(|group| format!("<Group>{group}</Group>")).collect() };
        let eight: Vec<(u16, u16)> = (0..8).map(|group| (0, group)).collect();
        let four = || Right::Refused(4, 0);
        let at_most_32 = image(&["INVITE", "sip:a"], &rows, &memberships, &[triggered(5, 0, (0, 32), 1)]);
        let of_eight = image(&["INVITE", "sip:a"], &rows[..1], &eight, &[triggered(5, 0, (0, 1), 1)]);
        vec![
            Fixed::new("X21: 64 criteria", &criteria(64), image(&["sip:a"], &[], &[], &bares)),
            Fixed::new("X21: 65 criteria", &criteria(65), four()),
            Fixed::new("X21: 32 SPT", &of_rows(&S.repeat(32)), at_most_32),
            Fixed::new("X21: 33 SPT", &of_rows(&S.repeat(33)), four()),
            Fixed::new("X21: eight Groups", &of_rows(&row(&(groups(8) + M))), of_eight),
            Fixed::new("X21: nine Groups", &of_rows(&row(&(groups(9) + M))), four()),
            Fixed::new(
                "X21: a string of 1,024 bytes",
                &informed(1_024),
                image(&["sip:a", &"i".repeat(1_024)], &[], &[], &[long]),
            ),
            Fixed::new("X21: a string of 1,025 bytes", &informed(1_025), four()),
            Fixed::new("X21: a string of 60,000 bytes", &informed(60_000), four()),
            Fixed::new("X21: 1,024 strings", &many_strings(1_024), strings_1024()),
            Fixed::new("X21: 1,025 strings", &many_strings(1_025), four()),
        ]
    }

    /// 511 rows of two strings in triggers of 32, and a last criterion with the others.
    fn many_strings(count: usize) -> String {
        let header = |number: usize| {
            let (first, second) = (2 * number, 2 * number + 1);
            row(&format!("{G}<SIPHeader><Header>h{first}</Header><Content>h{second}</Content></SIPHeader>"))
        };
        let of = |from: usize| -> String { (from..(from + 32).min(511)).map(header).collect() };
        let whole: String = (0..16)
            .map(|number| criterion(&number.to_string(), &format!("{T}{}{T_END}{A}", of(32 * number))))
            .collect();
        let rest: String = (1_023..count)
            .map(|number| {
                let server =
                    format!("<ApplicationServer>{V}<ServiceInfo>i{number}</ServiceInfo></ApplicationServer>");
                criterion(&number.to_string(), &server)
            })
            .collect();
        whole + &rest
    }

    /// The server stands behind the 64 strings of the first 32 rows.
    fn strings_1024() -> Right {
        let names: Vec<String> = (0..1_022).map(|number| format!("h{number}")).collect();
        let mut strings: Vec<&str> = names.iter().map(String::as_str).collect();
        strings.insert(64, "sip:a");
        strings.push("i1023");
        let index = |number: u16| if number < 64 { number } else { number + 1 };
        let rows: Vec<RowDraft> = (0..511).map(|row| kind(2, index(2 * row), index(2 * row + 1))).collect();
        let memberships: Vec<(u16, u16)> = (0..511).map(|row| (row, 0)).collect();
        let mut criteria: Vec<CriterionDraft> = (0..16)
            .map(|number| triggered(number.into(), 0, (32 * number, if number == 15 { 31 } else { 32 }), 64))
            .collect();
        criteria.push(CriterionDraft { information: 1_023, ..bare(1_023, 64) });
        image(&strings, &rows, &memberships, &criteria)
    }

    /// 33 criteria whose information makes an image of 32,768 bytes where the last has 191: 9 bytes of counts, 7 for the server,
    /// 33 times 15 for the criteria, 33 times 2 and 32,191 for information.
    fn large(last: usize, server: &str) -> (String, Right) {
        let information = |number: usize| {
            let length = if number == 32 { last } else { 1_000 };
            format!("{number:03}{}", "i".repeat(length - 3))
        };
        let text = (0..33).map(|number| {
            let information = format!("<ServiceInfo>{}</ServiceInfo>", information(number));
            let name = format!("<ServerName>{server}</ServerName>");
            criterion(
                &number.to_string(),
                &format!("<ApplicationServer>{name}{information}</ApplicationServer>"),
            )
        });
        let mut strings = vec![server.to_string()];
        strings.extend((0..33).map(information));
        let strings: Vec<&str> = strings.iter().map(String::as_str).collect();
        let criteria: Vec<CriterionDraft> = (0..33)
            .map(|number| CriterionDraft { information: number + 1, ..bare(number.into(), 0) })
            .collect();
        (text.collect(), image(&strings, &[], &[], &criteria))
    }

    fn sizes() -> Vec<Fixed> {
        let (most, image) = large(191, "sip:a");
        let (more, _) = large(192, "sip:a");
        let refused = |label, text: &str, number| Fixed::new(label, text, Right::Refused(number, 0));
        vec![
            Fixed::new("an image of 32,768 bytes", &most, image),
            refused("an image of 32,769 bytes", &more, 1),
            refused("Y18: 1 before 12", &more, 1).with_room(0),
            refused("Y17: 5 before 1", &large(999, "").0, 5),
            refused(
                "Y17: 4 before 1",
                &(more.clone() + &criterion("99", &format!("{A}{I}")).replace("r>0", "r>2")),
                4,
            ),
            refused("Y17: 6 before 1", &(more.clone() + &criterion("0", A)), 6),
            refused("Y17: 6 before 12", &criterion("0", A).repeat(2), 6).with_room(0),
            refused("an image of 32,768 bytes, room for fewer", &most, 12).with_room(32_767),
        ]
    }

    /// The image of one criterion has 31 bytes.
    pub fn rooms() -> Vec<Fixed> {
        let one = || Fixed::new("", &criterion("5", A), image(&["sip:a"], &[], &[], &[bare(5, 0)]));
        let named = |label: &str, room: usize| Fixed { label: label.to_string(), room, ..one() };
        let lack =
            |label: &str, text: &str, room| Fixed::new(label, text, Right::Refused(12, 0)).with_room(room);
        vec![
            named("Y18: room for the image alone", 31),
            named("Y18: room for one byte more", 32),
            named("Y18: room for many more", 65_536),
            lack("Y18: room for one byte less", &criterion("5", A), 30),
            lack("Y18: no room", &criterion("5", A), 0),
            lack("Y18: no room for the empty profile", "", 0),
            lack("Y18: room for 8 bytes of the empty profile", "", 8),
            Fixed::new("14 before 12", "a", Right::Refused(14, 0)).with_room(0),
        ]
    }
}
