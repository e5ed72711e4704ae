//! A field's name as it is matched: the one-letter names of RFC 3261 become the long ones.

use crate::twist::{twisted, Twist};

/// The list of change request 1, each name with the twist that leaves it out.
pub const SHORT: [(u8, &str, Twist); 10] = [
    (b'i', "Call-ID", Twist::ShortCallIdStays),
    (b'm', "Contact", Twist::ShortContactStays),
    (b'e', "Content-Encoding", Twist::ShortContentEncodingStays),
    (b'l', "Content-Length", Twist::ShortContentLengthStays),
    (b'c', "Content-Type", Twist::ShortContentTypeStays),
    (b'f', "From", Twist::ShortFromStays),
    (b's', "Subject", Twist::ShortSubjectStays),
    (b'k', "Supported", Twist::ShortSupportedStays),
    (b't', "To", Twist::ShortToStays),
    (b'v', "Via", Twist::ShortViaStays),
];

/// Short names of later RFCs: no part of the list, so they stay.
pub const LATER: [(u8, &str); 10] = [
    (b'o', "Event"),
    (b'u', "Allow-Events"),
    (b'r', "Refer-To"),
    (b'x', "Session-Expires"),
    (b'j', "Reject-Contact"),
    (b'a', "Accept-Contact"),
    (b'b', "Referred-By"),
    (b'd', "Request-Disposition"),
    (b'y', "Identity"),
    (b'n', "Identity-Info"),
];

/// "The one-letter names of RFC 3261 become the long ones, in either case." Any other name stays as written.
pub fn long(written: &[u8]) -> Vec<u8> {
    match listed(written) {
        Some(long) if twisted(Twist::LongNamesInLowerCase) => long.to_ascii_lowercase().into_bytes(),
        Some(long) => long.as_bytes().to_vec(),
        None => written.to_vec(),
    }
}

fn listed(written: &[u8]) -> Option<&'static str> {
    if twisted(Twist::ShortNamesStay) {
        return None;
    }
    let letter = match written {
        [letter] => *letter,
        [letter, _] if twisted(Twist::ShortByFirstByte) => *letter,
        [_, letter] if twisted(Twist::ShortByLastByte) => *letter,
        _ => return None,
    };
    let letter = match twisted(Twist::ShortCapitalsStay) {
        true => letter,
        false => letter.to_ascii_lowercase(),
    };
    match letter {
        b'c' if twisted(Twist::ShortCIsContact) => return Some("Contact"),
        b'e' if twisted(Twist::ShortEIsEncoding) => return Some("Encoding"),
        b'i' if twisted(Twist::ShortILacksDash) => return Some("CallID"),
        b'k' if twisted(Twist::ShortKAndSSwapped) => return Some("Subject"),
        b's' if twisted(Twist::ShortKAndSSwapped) => return Some("Supported"),
        _ => {}
    }
    let short = SHORT.iter().find(|&&(short, _, missing)| short == letter && !twisted(missing));
    let later = LATER.iter().find(|&&(later, _)| later == letter && twisted(Twist::LaterShortNamesToo));
    short.map(|&(_, long, _)| long).or(later.map(|&(_, long)| long))
}
