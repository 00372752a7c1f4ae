//! Compact JSON into a lent buffer, sixteen bytes at a time where there is room for them: bytes behind
//! the end are written over, or zeroed when the run is over.

use std::ops::Range;

pub(crate) struct Text<'b> {
    bytes: &'b mut [u8],
    /// Behind the end of the bytes where the text is too long for them.
    end: usize,
}

/// `00` to `99`.
const PAIRS: [[u8; 2]; 100] = {
    let mut pairs = [[b'0'; 2]; 100];
    let mut number = 0;
    while number < 100 {
        pairs[number] = [b'0' + number as u8 / 10, b'0' + number as u8 % 10];
        number += 1;
    }
    pairs
};

/// Bytes that are copied at once.
const CHUNK: usize = 16;

impl<'b> Text<'b> {
    pub fn new(bytes: &'b mut [u8]) -> Self {
        Text { bytes, end: 0 }
    }

    /// Where the text ends now; behind the buffer's end where it is too long.
    pub fn end(&self) -> usize {
        self.end
    }

    pub fn is_too_long(&self) -> bool {
        self.end > self.bytes.len()
    }

    /// Takes back what was written since the text ended there.
    pub fn back_to(&mut self, end: usize) {
        self.end = end;
    }

    fn has_become_too_long(&mut self) {
        self.end = self.bytes.len() + 1;
    }

    /// The next so many bytes, if there are so many.
    #[inline]
    fn next<const COUNT: usize>(&mut self) -> Option<&mut [u8; COUNT]> {
        self.bytes.get_mut(self.end..)?.first_chunk_mut()
    }

    #[inline]
    pub fn put(&mut self, byte: u8) {
        self.put_all([byte]);
    }

    #[inline]
    fn put_all<const COUNT: usize>(&mut self, bytes: [u8; COUNT]) {
        match self.next() {
            Some(next) => {
                *next = bytes;
                self.end += COUNT;
            }
            None => self.has_become_too_long(),
        }
    }

    #[inline]
    pub fn put_null(&mut self) {
        self.put_all(*b"null");
    }

    #[inline]
    pub fn put_bool(&mut self, value: bool) {
        if value {
            self.put_all(*b"true");
        } else {
            self.put_all(*b"false");
        }
    }

    /// Bytes that stand for themselves.
    pub fn put_bytes(&mut self, bytes: &[u8]) {
        match self.bytes.get_mut(self.end..self.end + bytes.len()) {
            Some(next) => {
                next.copy_from_slice(bytes);
                self.end += bytes.len();
            }
            None => self.has_become_too_long(),
        }
    }

    /// A comma, a name in quotes, a colon.
    pub fn put_key(&mut self, pool: &[u8], name: Range<usize>) {
        let length = name.len();
        if length <= CHUNK {
            if let Some(next) = self.next() {
                write_key(next, &chunk_at(pool, name.start), length);
                self.end += length + 4;
                return;
            }
        }
        self.put_long_key(&pool[name]);
    }

    /// The same, of any length.
    #[inline(never)]
    fn put_long_key(&mut self, name: &[u8]) {
        self.put_all(*b",\"");
        self.put_bytes(name);
        self.put_all(*b"\":");
    }

    /// A key that was made ready.
    #[inline]
    pub fn put_ready_key(
        &mut self,
        key: &ReadyKey,
        pool: &[u8],
        name: impl FnOnce() -> Range<usize>,
    ) {
        match self.next() {
            Some(next) if key.length > 0 => {
                *next = key.bytes;
                self.end += usize::from(key.length);
            }
            _ => self.put_key(pool, name()),
        }
    }

    /// A string in quotes, with escapes.
    #[inline]
    pub fn put_string(&mut self, pool: &[u8], string: Range<usize>) {
        let length = string.len();
        if length <= CHUNK {
            if let Some(next) = self.next::<{ CHUNK + 2 }>() {
                let chunk = chunk_at(pool, string.start);
                if plain_bytes(&chunk, length) == length {
                    next[0] = b'"';
                    next[1..=CHUNK].copy_from_slice(&chunk);
                    next[length + 1] = b'"';
                    self.end += length + 2;
                    return;
                }
            }
        }
        self.put_long_string(pool, string);
    }

    /// The same, of any length.
    #[inline(never)]
    fn put_long_string(&mut self, pool: &[u8], string: Range<usize>) {
        self.put(b'"');
        let Range { mut start, end } = string;
        while start < end {
            let Some(next) = self.next() else {
                self.put_bytewise(&pool[start..end]);
                break;
            };
            let chunk = chunk_at(pool, start);
            *next = chunk;
            let plain = plain_bytes(&chunk, end - start);
            self.end += plain;
            start += plain;
            if plain < CHUNK && start < end {
                self.put_escaped(pool[start]);
                start += 1;
            }
        }
        self.put(b'"');
    }

    /// Near the end of the buffer.
    #[inline(never)]
    fn put_bytewise(&mut self, string: &[u8]) {
        for byte in string {
            if *byte < b' ' || matches!(byte, b'"' | b'\\') {
                self.put_escaped(*byte);
            } else {
                self.put(*byte);
            }
        }
    }

    fn put_escaped(&mut self, byte: u8) {
        let letter = match byte {
            b'"' | b'\\' => byte,
            0x08 => b'b',
            0x0c => b'f',
            b'\n' => b'n',
            b'\r' => b'r',
            b'\t' => b't',
            _ => {
                let digit = |value: u8| b"0123456789abcdef"[value as usize % 16];
                return self.put_all([b'\\', b'u', b'0', b'0', digit(byte >> 4), digit(byte)]);
            }
        };
        self.put_all([b'\\', letter]);
    }

    /// An integer that is not negative.
    #[inline(always)]
    pub fn put_integer(&mut self, number: u64) {
        match self.next::<4>() {
            Some(next) if number < 10_000 => self.end += write_short(next, number as usize),
            _ => self.put_long_integer(number),
        }
    }

    /// The same, of many digits, or near the end.
    fn put_long_integer(&mut self, number: u64) {
        let mut digits = [b'0'; 20];
        let mut start = digits.len();
        let mut rest = number;
        while rest >= 10 {
            start -= 2;
            digits[start..start + 2].copy_from_slice(&PAIRS[(rest % 100) as usize]);
            rest /= 100;
        }
        if rest > 0 || number == 0 {
            start -= 1;
            digits[start] = b'0' + rest as u8;
        }
        self.put_bytes(&digits[start..]);
    }

    /// What was written since `start`, each part with a comma before it, gets its brackets.
    #[inline]
    pub fn close(&mut self, start: usize, [left, right]: [u8; 2]) {
        if self.end == start {
            return self.put_all([left, right]);
        }
        if let Some(first) = self.bytes.get_mut(start) {
            *first = left;
        }
        self.put(right);
    }

    /// Brings parts that were written one behind the other since `start` into the order in which they
    /// are named here.
    pub fn arrange(&mut self, start: usize, parts: &mut [Part]) {
        let end = self.end;
        if self.is_too_long() || parts.is_sorted_by_key(|part| part.start) {
            return;
        }
        if self.bytes.len() < end + (end - start) {
            return self.arrange_in_place(start, parts);
        }
        let mut to = end;
        for part in parts {
            self.copy(part.range(), to);
            to += part.range().len();
        }
        self.bytes.copy_within(end..to, start);
    }

    /// Copies a part of the text behind all parts.
    #[inline]
    fn copy(&mut self, part: Range<usize>, to: usize) {
        if part.len() <= CHUNK {
            let chunk = chunk_at(self.bytes, part.start);
            if let Some(next) = self.bytes[to..].first_chunk_mut() {
                *next = chunk;
                return;
            }
        }
        self.bytes.copy_within(part, to);
    }

    /// Where there is no room for another copy of the parts.
    #[cold]
    fn arrange_in_place(&mut self, start: usize, parts: &mut [Part]) {
        let mut to = start;
        let mut left = parts;
        while let [part, later @ ..] = left {
            let Range { start, end } = part.range();
            // An empty one may stand anywhere.
            if start < end {
                self.bytes[to..end].rotate_right(end - start);
                // What stood between has moved up.
                for other in later.iter_mut().filter(|other| other.start < part.start) {
                    other.start += part.end - part.start;
                    other.end += part.end - part.start;
                }
                to += end - start;
            }
            left = later;
        }
    }
}

/// Writes an integer of up to four digits: how many.
#[inline(always)]
fn write_short(next: &mut [u8; 4], number: usize) -> usize {
    let (high, low) = (number / 100, number % 100);
    match number {
        0..10 => {
            next[0] = b'0' + number as u8;
            1
        }
        10..100 => {
            next[..2].copy_from_slice(&PAIRS[low]);
            2
        }
        100..1_000 => {
            next[0] = b'0' + high as u8;
            next[1..3].copy_from_slice(&PAIRS[low]);
            3
        }
        _ => {
            next[..2].copy_from_slice(&PAIRS[high % 100]);
            next[2..].copy_from_slice(&PAIRS[low]);
            4
        }
    }
}

/// A comma, a name of up to sixteen bytes in quotes, a colon.
type Key = [u8; CHUNK + 4];

/// Writes the key of a name that has so many of these bytes.
#[inline]
fn write_key(key: &mut Key, chunk: &[u8; CHUNK], length: usize) {
    key[..2].copy_from_slice(b",\"");
    key[2..CHUNK + 2].copy_from_slice(chunk);
    key[length + 2] = b'"';
    key[length + 3] = b':';
}

/// A key to be copied at once.
#[derive(Debug, Clone, Copy)]
pub(crate) struct ReadyKey {
    bytes: Key,
    /// 0 where the name is too long.
    length: u8,
}

impl ReadyKey {
    pub const NONE: Self = ReadyKey { bytes: [0; CHUNK + 4], length: 0 };

    pub fn of(name: &[u8]) -> Self {
        let mut ready = Self::NONE;
        let mut chunk = [0; CHUNK];
        if let Some(part) = chunk.get_mut(..name.len()) {
            part.copy_from_slice(name);
            write_key(&mut ready.bytes, &chunk, name.len());
            ready.length = name.len() as u8 + 4;
        }
        ready
    }
}

/// A part of the text.
#[derive(Debug, Clone, Copy, Default)]
pub(crate) struct Part {
    start: u32,
    end: u32,
}

impl Part {
    /// What was written since the text ended there.
    pub fn since(start: usize, text: &Text<'_>) -> Self {
        Part { start: start as u32, end: text.end as u32 }
    }

    fn range(self) -> Range<usize> {
        self.start as usize..self.end as usize
    }
}

/// Sixteen bytes, with zeros for those behind the end. There are sixteen at least: of a pool, its names.
#[inline]
fn chunk_at(bytes: &[u8], start: usize) -> [u8; CHUNK] {
    let rest = &bytes[start..];
    match rest.first_chunk() {
        Some(chunk) => *chunk,
        None => {
            let last = bytes.last_chunk().map_or(0, |chunk| u128::from_le_bytes(*chunk));
            let before = 8 * (CHUNK - rest.len()) as u32;
            last.checked_shr(before).unwrap_or(0).to_le_bytes()
        }
    }
}

/// How many bytes stand for themselves before the first that is escaped, of so many that count.
#[inline]
fn plain_bytes(chunk: &[u8; CHUNK], count: usize) -> usize {
    let (words, _) = chunk.as_chunks();
    let mut plain = 0;
    for word in words {
        let escaped = escaped_bytes(u64::from_le_bytes(*word));
        plain += escaped.trailing_zeros() as usize / 8;
        if escaped != 0 || plain >= count {
            break;
        }
    }
    plain.min(count)
}

/// The same byte eight times.
const fn eight(byte: u8) -> u64 {
    u64::from_le_bytes([byte; 8])
}

/// Bit 7 of the first byte that is escaped, and none before it: a byte above may be told wrongly.
#[inline]
fn escaped_bytes(bytes: u64) -> u64 {
    let below = |bytes: u64, bound: u8| bytes.wrapping_sub(eight(bound)) & !bytes;
    let is = |byte: u8| below(bytes ^ eight(byte), 1);
    (below(bytes, b' ') | is(b'"') | is(b'\\')) & eight(0x80)
}

#[cfg(test)]
mod tests {
    use super::*;

    /// What is written into a buffer of so many bytes; none where it is too long.
    fn written(size: usize, put: impl FnOnce(&mut Text<'_>)) -> Option<Vec<u8>> {
        let mut bytes = vec![b'~'; size];
        let mut text = Text::new(&mut bytes);
        put(&mut text);
        let end = text.end();
        (!text.is_too_long()).then(|| bytes[..end].to_vec())
    }

    /// Demands that something is written wherever there is room for it, and nowhere else.
    fn demand(expected: &str, put: impl Fn(&mut Text<'_>)) {
        let length = expected.len();
        for size in length.saturating_sub(2)..length + 2 * CHUNK {
            let is_there = written(size, &put);
            assert_eq!(is_there.is_some(), size >= length, "{expected} in {size}");
            assert!(
                is_there.is_none_or(|bytes| bytes == expected.as_bytes()),
                "{expected} in {size}"
            );
        }
    }

    #[test]
    fn integers() {
        let powers = (0..20).map(|digits| 10u64.pow(digits));
        let around = powers.flat_map(|power| [power - 1, power, power + power / 7]);
        for number in around.chain([u64::MAX, 1 << 31, 1 << 63]) {
            demand(&number.to_string(), |text| text.put_integer(number));
        }
    }

    /// Strings of up to 40 bytes, with any byte below 128 at any place, at the pool's end and before it.
    #[test]
    fn strings() {
        for length in 1..40 {
            for byte in (0..128u8).step_by(if length % 8 == 1 { 1 } else { 17 }).chain(*b"\"\\\n") {
                let mut string = vec![b'a'; length];
                string[usize::from(byte) % length] = byte;
                let escaped = match byte {
                    b'"' => "\\\"".into(),
                    b'\\' => "\\\\".into(),
                    8 => "\\b".into(),
                    12 => "\\f".into(),
                    b'\n' => "\\n".into(),
                    b'\r' => "\\r".into(),
                    b'\t' => "\\t".into(),
                    ..32 => format!("\\u00{byte:02x}"),
                    _ => char::from(byte).to_string(),
                };
                let (before, behind) = string.split_at(usize::from(byte) % length);
                let [before, behind] = [before, &behind[1..]].map(|part| "a".repeat(part.len()));
                let expected = format!("\"{before}{escaped}{behind}\"");
                for rest in [0, 1, 20] {
                    let pool = [vec![b'x'; 30], string.clone(), vec![b'"'; rest]].concat();
                    demand(&expected, |text| text.put_string(&pool, 30..30 + length));
                }
            }
        }
    }

    #[test]
    fn keys() {
        for length in 1..=64 {
            let name = "k".repeat(length);
            let ready = ReadyKey::of(name.as_bytes());
            for rest in [0, 1, 20] {
                let pool = [vec![b'x'; 30], name.clone().into_bytes(), vec![b'"'; rest]].concat();
                let span = 30..30 + length;
                let expected = format!(",\"{name}\":");
                demand(&expected, |text| text.put_key(&pool, span.clone()));
                demand(&expected, |text| text.put_ready_key(&ready, &pool, || span.clone()));
            }
        }
    }

    /// Parts in any order, with and without room for another copy.
    #[test]
    fn parts() {
        let texts = ["", "a", "bcd", "", "0123456789abcdefghij", "xyz"];
        for turn in 0..720usize {
            let expected = format!("--{}", texts.concat());
            for size in [expected.len(), expected.len() + 5, 200] {
                let mut bytes = vec![b'~'; size];
                let mut text = Text::new(&mut bytes);
                text.put_bytes(b"--");
                let mut parts = [Part::default(); 6];
                // One of the orders in which they can be written.
                let (mut left, mut choice) = ((0..texts.len()).collect::<Vec<_>>(), turn);
                while !left.is_empty() {
                    let next = choice % left.len();
                    choice /= left.len();
                    let number = left.remove(next);
                    let before = text.end();
                    text.put_bytes(texts[number].as_bytes());
                    parts[number] = Part::since(before, &text);
                }
                text.arrange(2, &mut parts);
                let end = text.end();
                assert_eq!(bytes[..end], *expected.as_bytes(), "{turn}");
            }
        }
    }
}
