//! Strings, names and floats in the pool.

use crate::hash::{eight_at, first_bytes, mix};
use crate::notes::Met;
use std::str;
use tables::layout::{limit, width, RESERVED};

/// Which parts of a pool are strings.
pub(crate) trait Strings {
    fn has(&self, start: u32, length: u32) -> bool;
}

/// A pool of ASCII: every part is a string.
pub(crate) struct Ascii {
    pub length: usize,
}

/// A pool that is UTF-8 as a whole: a part is a string where both ends stand between characters, or where
/// it is empty.
pub(crate) struct Utf8<'t> {
    pub text: &'t str,
}

/// Any other pool: each part is looked at by itself.
pub(crate) struct Mixed<'t> {
    pub bytes: &'t [u8],
}

fn end(start: u32, length: u32) -> usize {
    start as usize + length as usize
}

impl Strings for Ascii {
    fn has(&self, start: u32, length: u32) -> bool {
        end(start, length) <= self.length
    }
}

impl Strings for Utf8<'_> {
    fn has(&self, start: u32, length: u32) -> bool {
        let (start, end) = (start as usize, end(start, length));
        // An end is a boundary only where it is in the text.
        self.text.is_char_boundary(end) && self.text.is_char_boundary(start)
            || start == end && end <= self.text.len()
    }
}

impl Strings for Mixed<'_> {
    fn has(&self, start: u32, length: u32) -> bool {
        let part = self.bytes.get(start as usize..end(start, length));
        part.is_some_and(|part| str::from_utf8(part).is_ok())
    }
}

/// The same byte eight times.
const fn eight(byte: u8) -> u64 {
    u64::from_le_bytes([byte; 8])
}

/// Whether eight bytes are all letters, digits or underscores.
fn are_name_bytes(word: u64) -> bool {
    let high = eight(0x80);
    // Bit 7 of each byte: whether it is in the range. No byte is above 127, so that none carries.
    let within = |word: u64, low: u8, most: u8| {
        (word + eight(0x80 - low)) & !(word + eight(0x7f - most)) & high
    };
    word & high == 0
        && within(word | eight(0x20), b'a', b'z')
            | within(word, b'0', b'9')
            | within(word, b'_', b'_')
            == high
}

/// The hash of a name, and none where it is misspelled.
fn name_hash(pool: &[u8], start: usize, length: usize) -> Option<u64> {
    let mut hash = length as u64;
    let mut at = start;
    let end = start + length;
    while at < end {
        let bits = first_bytes(end - at);
        let word = eight_at(pool, at) & bits;
        if !are_name_bytes(word | (eight(b'_') & !bits)) {
            return None;
        }
        hash = mix(hash, word);
        at += 8;
    }
    (!pool[start].is_ascii_digit()).then_some(hash)
}

type NameRow = [u32; width::NAMES];

/// Names are spelled as names, the reserved ones come first, and no two are equal.
pub(crate) fn names_are_lawful(pool: &[u8], names: &[NameRow]) -> bool {
    // Fewer slots are sooner empty.
    if names.len() <= 64 {
        names_are_apart::<128>(pool, names)
    } else {
        names_are_apart::<1024>(pool, names)
    }
}

fn names_are_apart<const SLOTS: usize>(pool: &[u8], names: &[NameRow]) -> bool {
    let mut met = Met::<SLOTS>::new();
    for (row, &[start, length]) in names.iter().enumerate() {
        let fits = (1..=limit::NAME_BYTES as u32).contains(&length);
        if !fits || end(start, length) > pool.len() {
            return false;
        }
        let (start, length) = (start as usize, length as usize);
        let Some(hash) = name_hash(pool, start, length) else { return false };
        let name = &pool[start..start + length];
        if met.meet(row, hash, |other| part(pool, names[other]) == name).is_some() {
            return false;
        }
    }
    RESERVED.iter().zip(names).all(|(text, row)| part(pool, *row) == text.as_bytes())
}

/// The bytes of a string that is known to be one.
pub(crate) fn part(pool: &[u8], [start, length]: [u32; 2]) -> &[u8] {
    &pool[start as usize..end(start, length)]
}

/// A number of RFC 8259 that has a fraction or an exponent.
pub(crate) fn is_float(text: &[u8]) -> bool {
    let text = text.strip_prefix(b"-").unwrap_or(text);
    let whole = digits(text);
    if whole == 0 || (whole > 1 && text[0] == b'0') {
        return false;
    }
    let mut rest = &text[whole..];
    if rest.is_empty() {
        return false;
    }
    if let Some(fraction) = rest.strip_prefix(b".") {
        let count = digits(fraction);
        if count == 0 {
            return false;
        }
        rest = &fraction[count..];
    }
    match rest {
        [] => true,
        [b'e' | b'E', b'+' | b'-', exponent @ ..] | [b'e' | b'E', exponent @ ..] => {
            !exponent.is_empty() && digits(exponent) == exponent.len()
        }
        _ => false,
    }
}

/// How many digits a text begins with.
fn digits(text: &[u8]) -> usize {
    text.iter().take_while(|byte| byte.is_ascii_digit()).count()
}
