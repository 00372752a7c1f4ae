//! Reading a table file, line by line.

use super::{keywords, token};
use crate::layout::{condition, width, RESERVED};
use crate::rows::Tables;

/// The words of a table that `ladle` holds, and so a file.
const MOST_WORDS: usize = 20_640;

/// What is wrong, in `ladle`'s words.
type Message = String;

/// Why a text is no table file.
#[derive(Debug, PartialEq, Eq)]
pub struct Fault {
    /// Counted from 1.
    pub line: usize,
    pub message: String,
}

/// Reads a table file. What the words mean is not looked at.
pub fn read(text: impl AsRef<[u8]>) -> Result<Tables, Fault> {
    let mut reader = Reader::default();
    for (index, line) in text.as_ref().split(|byte| *byte == b'\n').enumerate() {
        reader.line(line).map_err(|message| Fault { line: index + 1, message })?;
    }
    let root = reader.root.first().copied().unwrap_or(0);
    Ok(Tables { root, ..reader.tables })
}

#[derive(Default)]
struct Reader {
    tables: Tables,
    /// The words of `[root]`.
    root: Vec<u32>,
    /// The table that stands open.
    open: Option<&'static str>,
}

impl Reader {
    fn line(&mut self, line: &[u8]) -> Result<(), Message> {
        let line = token::skip_blanks(line);
        if token::is_at_end(line) {
            return Ok(());
        }
        if line[0] == b'[' {
            self.open = Some(self.heading(line)?);
            return Ok(());
        }
        let table = self.open.ok_or("a row before the first table, as [names]")?;
        let (times, tokens) = repetition(line);
        match table {
            "pool" => self.pool_line(times, tokens),
            _ => self.rows(table, times, tokens),
        }
    }

    /// The table that a heading begins.
    fn heading(&self, line: &[u8]) -> Result<&'static str, Message> {
        let (heading, behind) = token::split(line);
        let word_tables = self.tables.word_tables();
        let names = word_tables.iter().map(|(name, ..)| *name).chain(["pool", "root"]);
        let mut found = names.filter(|name| format!("[{name}]").as_bytes() == heading);
        let name = found.next().ok_or_else(|| quoting("no such table", heading))?;
        let (next, _) = token::split(behind);
        if !next.is_empty() {
            return Err(quoting("nothing but a comment may follow a table's name", next));
        }
        Ok(name)
    }

    /// A line of the pool.
    fn pool_line(&mut self, times: u32, tokens: &[u8]) -> Result<(), Message> {
        let start = self.tables.pool.len();
        self.tokens("pool", tokens)?;
        let pool = &mut self.tables.pool;
        let bytes = pool.split_off(start);
        if start + bytes.len() * times as usize > token::MOST_BYTES {
            return Err(token::POOL_FULL.into());
        }
        pool.extend(bytes.repeat(times as usize));
        Ok(())
    }

    /// A line of a table other than the pool.
    fn rows(&mut self, table: &str, times: u32, tokens: &[u8]) -> Result<(), Message> {
        let start = self.words(table).len();
        let tokens = self.reserved(table, tokens)?;
        self.tokens(table, tokens)?;
        self.whole_rows(table, start)?;
        self.repeat(table, start, times)?;
        if self.root.len() > 1 {
            return Err("[root] has one number".into());
        }
        Ok(())
    }

    /// The reserved names, where a line of names begins with the word for them. Gives what stands
    /// behind it.
    fn reserved<'t>(&mut self, table: &str, tokens: &'t [u8]) -> Result<&'t [u8], Message> {
        let (first, behind) = token::split(tokens);
        if table != "names" || first != b"reserved" {
            return Ok(tokens);
        }
        for name in RESERVED {
            self.token(table, format!("\"{name}\"").as_bytes())?;
        }
        Ok(behind)
    }

    /// The words from `start` on are whole rows.
    fn whole_rows(&mut self, table: &str, start: usize) -> Result<(), Message> {
        let word_tables = self.tables.word_tables();
        let width = word_tables.iter().find(|(name, ..)| *name == table);
        let width = width.map_or(1, |(_, width, _)| *width);
        let count = self.words(table).len() - start;
        if count > 0 && count.is_multiple_of(width) {
            return Ok(());
        }
        let words = if count == 1 { "word" } else { "words" };
        Err(format!("{count} {words}, a row of {table} has {width}"))
    }

    fn tokens(&mut self, table: &str, tokens: &[u8]) -> Result<(), Message> {
        let mut rest = token::skip_blanks(tokens);
        while !token::is_at_end(rest) {
            rest = token::skip_blanks(self.token(table, rest)?);
        }
        Ok(())
    }

    /// Reads a token, and gives what stands behind it.
    fn token<'t>(&mut self, table: &str, text: &'t [u8]) -> Result<&'t [u8], Message> {
        if let Some(string) = text.strip_prefix(b"\"") {
            let pool = &mut self.tables.pool;
            let start = pool.len();
            let behind = token::string(pool, string)?;
            let length = pool.len() - start;
            if table != "pool" {
                self.append(table, &[start as u32, length as u32])?;
            }
            return Ok(behind);
        }
        let (token, behind) = token::split(text);
        if table == "pool" {
            return Err(quoting("[pool] holds strings only", token));
        }
        let words = self.meaning(table, token).map_err(|why| quoting(why, token))?;
        self.append(table, &words)?;
        Ok(behind)
    }

    /// The words that a token stands for which is no string.
    fn meaning(&self, table: &str, token: &[u8]) -> Result<Vec<u32>, &'static str> {
        let word = match token {
            [b'0'..=b'9', ..] => return token::number(token),
            [b'\'', name @ ..] => self.name(name)?,
            [b'$', name @ ..] => self.name(name)? + condition::VARIABLE,
            [b'@', b'\'', name @ ..] => self.name(name)? + 1,
            [b'@', number @ ..] => token::word(number)?.checked_add(1).ok_or(token::TOO_LARGE)?,
            word => keywords::number(table, word).ok_or("no such word in this table")?,
        };
        Ok(vec![word])
    }

    /// The first row of `[names]` so far that has these bytes.
    fn name(&self, name: &[u8]) -> Result<u32, &'static str> {
        let has_name = |row: &[u32]| {
            let (start, length) = (row[0] as usize, row[1] as usize);
            length == name.len() && self.tables.pool.get(start..start + length) == Some(name)
        };
        let row = self.tables.names.chunks_exact(width::NAMES).position(has_name);
        row.map(|row| row as u32).ok_or("no such name in [names] so far")
    }

    /// The words of a table other than the pool.
    fn words(&mut self, table: &str) -> &mut Vec<u32> {
        let tables = self.tables.word_tables_mut().into_iter();
        let mut found = tables.filter(|(name, ..)| *name == table);
        found.next().map_or(&mut self.root, |(.., words)| words)
    }

    fn append(&mut self, table: &str, more: &[u32]) -> Result<(), Message> {
        let words = self.words(table);
        if words.len() + more.len() > MOST_WORDS {
            return Err(TOO_MANY.into());
        }
        words.extend(more);
        Ok(())
    }

    /// Makes the words from `start` on stand so many times.
    fn repeat(&mut self, table: &str, start: usize, times: u32) -> Result<(), Message> {
        let words = self.words(table);
        let rows = words.split_off(start);
        if start + rows.len() * times as usize > MOST_WORDS {
            return Err(TOO_MANY.into());
        }
        words.extend(rows.repeat(times as usize));
        Ok(())
    }
}

const TOO_MANY: &str = "more rows than ladle holds";

/// What is wrong with a token, and the token.
fn quoting(why: &str, token: &[u8]) -> Message {
    format!("{why}: {}", String::from_utf8_lossy(token))
}

/// How often the words of a line stand, `N *`, and its tokens.
fn repetition(line: &[u8]) -> (u32, &[u8]) {
    let (number, behind) = token::split(line);
    let (star, tokens) = token::split(behind);
    match token::word(number) {
        Ok(times) if star == b"*" => (times, tokens),
        _ => (1, line),
    }
}
