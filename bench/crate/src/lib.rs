//! The crate `regex` for bench/turns.cc and bench/groups.cc: a regex of a text, and the sums of its matches in another one.

use regex::bytes::{Regex, RegexBuilder};
use std::slice;
use std::str;

/// The sums of matches, as turns.cc has them; the crate doesn't tell which pattern matched.
#[repr(C)]
pub struct Totals {
    matches: u64,
    patterns: u64,
    starts: u64,
    ends: u64,
}

/// A regex, or null where the text is none.
///
/// # Safety
/// `text` points to `len` bytes.
#[no_mangle]
pub unsafe extern "C" fn crate_regex(text: *const u8, len: usize, unicode: bool) -> *mut Regex {
    let Ok(text) = str::from_utf8(slice::from_raw_parts(text, len)) else {
        return std::ptr::null_mut();
    };
    match RegexBuilder::new(text).unicode(unicode).build() {
        Ok(regex) => Box::into_raw(Box::new(regex)),
        Err(_) => std::ptr::null_mut(),
    }
}

/// Frees a regex.
///
/// # Safety
/// `regex` is of `crate_regex`, and isn't used any more.
#[no_mangle]
pub unsafe extern "C" fn crate_free(regex: *mut Regex) {
    if !regex.is_null() {
        drop(Box::from_raw(regex));
    }
}

/// Adds up the matches in a text, one after the other.
///
/// # Safety
/// `regex` is of `crate_regex` and not null, and `text` points to `len` bytes.
#[no_mangle]
pub unsafe extern "C" fn crate_matches(regex: *const Regex, text: *const u8, len: usize, totals: *mut Totals) {
    let mut sums = Totals {
        matches: 0,
        patterns: 0,
        starts: 0,
        ends: 0,
    };
    for found in (*regex).find_iter(slice::from_raw_parts(text, len)) {
        sums.matches += 1;
        sums.starts += found.start() as u64;
        sums.ends += found.end() as u64;
    }
    *totals = sums;
}

/// The sums of matches and of the offsets of their groups, as groups.cc has them.
#[repr(C)]
pub struct GroupTotals {
    matches: usize,
    offsets: usize,
}

/// Adds up the matches in a text with the offsets of their groups, one after the other. No pattern may match the empty string.
///
/// # Safety
/// `regex` is of `crate_regex` and not null, and `text` points to `len` bytes.
#[no_mangle]
pub unsafe extern "C" fn crate_groups(regex: *const Regex, text: *const u8, len: usize, totals: *mut GroupTotals) {
    let text = slice::from_raw_parts(text, len);
    let mut groups = (*regex).capture_locations();
    let mut sums = GroupTotals {
        matches: 0,
        offsets: 0,
    };
    let mut from = 0;
    while let Some(found) = (*regex).captures_read_at(&mut groups, text, from) {
        sums.matches += 1;
        for (start, end) in (0..groups.len()).filter_map(|group| groups.get(group)) {
            sums.offsets += start + end;
        }
        from = found.end();
    }
    *totals = sums;
}
