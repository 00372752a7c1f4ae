//! What a line is made of: blanks, tokens, numbers and strings.

/// What is wrong, in `ladle`'s words.
type Message = &'static str;

/// The pool's bytes that `ladle` holds, and so a file.
pub(super) const MOST_BYTES: usize = 69_632;

fn is_blank(byte: u8) -> bool {
    matches!(byte, b' ' | b'\t' | b'\r')
}

/// What stands behind the blanks.
pub(super) fn skip_blanks(line: &[u8]) -> &[u8] {
    let blanks = line.iter().take_while(|byte| is_blank(**byte)).count();
    &line[blanks..]
}

/// Whether nothing is left of a line but a comment.
pub(super) fn is_at_end(line: &[u8]) -> bool {
    matches!(line, [] | [b'#', ..])
}

/// The token with which a line begins, blanks apart, and what stands behind it.
pub(super) fn split(line: &[u8]) -> (&[u8], &[u8]) {
    let line = skip_blanks(line);
    let inside = |byte: &&u8| !is_blank(**byte) && **byte != b'#';
    line.split_at(line.iter().take_while(inside).count())
}

/// The number that a token spells.
fn decimal(token: &[u8]) -> Result<u64, Message> {
    let digits = std::str::from_utf8(token).ok();
    let digits = digits.filter(|text| text.bytes().all(|byte| byte.is_ascii_digit()));
    let digits = digits.filter(|text| !text.is_empty());
    let digits = digits.ok_or("a number has digits only, and an L behind a 64-bit one")?;
    digits.parse().map_err(|_| TOO_LARGE)
}

pub(super) const TOO_LARGE: Message = "the number is too large";

/// The same, of a number that is a word.
pub(super) fn word(token: &[u8]) -> Result<u32, Message> {
    u32::try_from(decimal(token)?).map_err(|_| TOO_LARGE)
}

/// The word of a number, or the two of a number with `L` behind it, the low half first.
pub(super) fn number(token: &[u8]) -> Result<Vec<u32>, Message> {
    let Some(digits) = token.strip_suffix(b"L") else { return Ok(vec![word(token)?]) };
    let wide = decimal(digits)?;
    Ok(vec![wide as u32, (wide >> 32) as u32])
}

/// Puts the bytes of a string, of which the opening quote is read, at the pool's end. Gives what
/// stands behind the closing one.
pub(super) fn string<'t>(pool: &mut Vec<u8>, text: &'t [u8]) -> Result<&'t [u8], Message> {
    let mut rest = text;
    loop {
        let (byte, behind) = match rest {
            [] => return Err("the string is not closed on its line"),
            [b'"', behind @ ..] => return closed(behind),
            [b'\\', escape @ ..] => escaped(escape)?,
            [byte, behind @ ..] => (*byte, behind),
        };
        if pool.len() >= MOST_BYTES {
            return Err(POOL_FULL);
        }
        pool.push(byte);
        rest = behind;
    }
}

pub(super) const POOL_FULL: Message = "more bytes of strings than ladle holds";

fn closed(behind: &[u8]) -> Result<&[u8], Message> {
    match behind {
        [byte, ..] if !is_blank(*byte) && *byte != b'#' => Err("a blank has to follow a string"),
        _ => Ok(behind),
    }
}

/// The byte that an escape stands for, whose backslash is read.
fn escaped(escape: &[u8]) -> Result<(u8, &[u8]), Message> {
    let read = match escape {
        [b'n', behind @ ..] => Some((b'\n', behind)),
        [b't', behind @ ..] => Some((b'\t', behind)),
        [byte @ (b'"' | b'\\'), behind @ ..] => Some((*byte, behind)),
        [b'x', high, low, behind @ ..] => hex(*high, *low).map(|byte| (byte, behind)),
        _ => None,
    };
    read.ok_or(r#"an escape is one of \" \\ \n \t \xHH"#)
}

fn hex(high: u8, low: u8) -> Option<u8> {
    let digit = |byte: u8| (byte as char).to_digit(16);
    Some((digit(high)? * 16 + digit(low)?) as u8)
}
