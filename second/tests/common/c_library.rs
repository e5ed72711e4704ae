//! The C library's `regcomp` and `regexec`, "C" locale.

#![allow(dead_code)]

use second::place::Place;
use std::ffi::{c_char, c_int, c_void, CString};

/// No flag: basic regular expressions.
pub const BASIC: c_int = 0;
/// `REG_EXTENDED`, 1 in the C libraries that this runs on.
pub const EXTENDED: c_int = 1;

/// Larger than `regex_t` of any libc this runs on (64 bytes with glibc).
#[repr(C, align(16))]
struct Opaque([u8; 512]);

unsafe extern "C" {
    fn regcomp(regex: *mut c_void, pattern: *const c_char, flags: c_int) -> c_int;
    fn regexec(
        regex: *const c_void,
        text: *const c_char,
        count: usize,
        parts: *mut c_void,
        flags: c_int,
    ) -> c_int;
    fn regfree(regex: *mut c_void);
}

pub struct Regex(Opaque);

impl Regex {
    pub fn new(text: &[u8], flags: c_int) -> Option<Regex> {
        let text = CString::new(text).expect("no byte 0");
        let mut regex = Regex(Opaque([0; 512]));
        // SAFETY: the buffer is large enough for a regex_t and the text ends in byte 0.
        let error = unsafe { regcomp(regex.0 .0.as_mut_ptr().cast(), text.as_ptr(), flags) };
        if error == 0 {
            return Some(regex);
        }
        // A failed regcomp leaves nothing to free.
        std::mem::forget(regex);
        None
    }

    pub fn matches(&self, text: &[u8]) -> bool {
        let text = CString::new(text).expect("no byte 0");
        // SAFETY: the buffer holds a compiled regex_t; no parts are asked for.
        unsafe { regexec(self.0 .0.as_ptr().cast(), text.as_ptr(), 0, std::ptr::null_mut(), 0) == 0 }
    }

    /// "The leftmost, and of those the longest" part, as POSIX has it too.
    pub fn place(&self, text: &[u8]) -> Option<Place> {
        let text = CString::new(text).expect("no byte 0");
        let mut part = [0 as c_int; 2];
        // SAFETY: as above; one part is asked for, a regmatch_t of two regoff_t, which are int.
        let met =
            unsafe { regexec(self.0 .0.as_ptr().cast(), text.as_ptr(), 1, part.as_mut_ptr().cast(), 0) == 0 };
        met.then(|| Place { start: part[0] as usize, length: (part[1] - part[0]) as usize })
    }
}

impl Drop for Regex {
    fn drop(&mut self) {
        // SAFETY: made by a successful regcomp, freed once.
        unsafe { regfree(self.0 .0.as_mut_ptr().cast()) }
    }
}
