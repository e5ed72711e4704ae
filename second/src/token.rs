//! Token bytes of RFC 3261, section 25.1.

use crate::twist::{twisted, Twist};

/// The bytes a token may have beside letters and digits.
const MARKS: &[u8] = b"-.!%*_+`'~";

pub fn is_token_byte(byte: u8) -> bool {
    if twisted(Twist::TokenLacksBacktick) && byte == b'`' {
        return false;
    }
    if twisted(Twist::TokenHasSlash) && byte == b'/' {
        return true;
    }
    byte.is_ascii_alphanumeric() || MARKS.contains(&byte)
}

pub fn is_token(text: &[u8]) -> bool {
    !text.is_empty() && text.iter().all(|&byte| is_token_byte(byte))
}
