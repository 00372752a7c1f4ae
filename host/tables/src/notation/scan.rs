//! Tokens of the notation, and the literals that schema and document share.

use super::Fault;
use crate::describe::{Literal, LiteralValue, Type};

pub(super) struct Scanner<'t> {
    rest: &'t str,
    next_place: &'t mut u32,
}

impl<'t> Scanner<'t> {
    pub(super) fn new(text: &'t str, next_place: &'t mut u32) -> Self {
        let mut scanner = Scanner { rest: text, next_place };
        scanner.skip_blanks();
        scanner
    }

    fn skip_blanks(&mut self) {
        self.rest = self.rest.trim_start_matches([' ', '\n', '\t', ',']);
    }

    pub(super) fn fault<T>(&self, wanted: &str) -> Result<T, Fault> {
        Err(format!("wanted {wanted}, found {:?}", self.rest))
    }

    pub(super) fn at_end(&self) -> bool {
        self.rest.is_empty()
    }

    pub(super) fn peek(&self, sign: &str) -> bool {
        self.rest.starts_with(sign)
    }

    /// Takes a sign if it is the next thing.
    pub(super) fn take(&mut self, sign: &str) -> bool {
        let Some(rest) = self.rest.strip_prefix(sign) else { return false };
        self.rest = rest;
        self.skip_blanks();
        true
    }

    pub(super) fn expect(&mut self, sign: &str) -> Result<(), Fault> {
        if self.take(sign) {
            Ok(())
        } else {
            self.fault(sign)
        }
    }

    fn run(&self, belongs: impl Fn(char) -> bool) -> &'t str {
        let end = self.rest.find(|letter| !belongs(letter)).unwrap_or(self.rest.len());
        &self.rest[..end]
    }

    fn drop(&mut self, taken: &str) {
        self.rest = &self.rest[taken.len()..];
        self.skip_blanks();
    }

    pub(super) fn peek_name(&self) -> Option<&'t str> {
        let name = self.run(|letter| letter.is_ascii_alphanumeric() || letter == '_');
        let is_name = !name.is_empty() && !name.starts_with(|first: char| first.is_ascii_digit());
        is_name.then_some(name)
    }

    pub(super) fn name(&mut self) -> Result<String, Fault> {
        match self.peek_name() {
            Some(name) => {
                self.drop(name);
                Ok(name.into())
            }
            None => self.fault("a name"),
        }
    }

    /// Takes a word if it is the next name.
    pub(super) fn word(&mut self, word: &str) -> bool {
        let is_next = self.peek_name() == Some(word);
        if is_next {
            self.drop(word);
        }
        is_next
    }

    /// The place that is given, or the next of those that are not.
    pub(super) fn place(&mut self) -> Result<u32, Fault> {
        if !self.take("'") {
            let place = *self.next_place;
            *self.next_place += 1;
            return Ok(place);
        }
        let digits = self.run(|letter| letter.is_ascii_digit());
        self.drop(digits);
        digits.parse().map_err(|_| format!("no place: {digits:?}"))
    }

    /// The spelling of a number, if that is the next thing.
    pub(super) fn number(&mut self) -> Option<String> {
        if !self.rest.starts_with(|first: char| first == '-' || first.is_ascii_digit()) {
            return None;
        }
        let number = self.run(|letter| letter.is_ascii_digit() || "+-.eE".contains(letter));
        self.drop(number);
        Some(number.into())
    }

    /// A quoted string, if that is the next thing; escapes as in JSON.
    pub(super) fn string(&mut self) -> Result<Option<String>, Fault> {
        let Some(rest) = self.rest.strip_prefix('"') else { return Ok(None) };
        let mut text = String::new();
        let mut letters = rest.chars();
        loop {
            match letters.next() {
                None => return self.fault("the end of a string"),
                Some('"') => break,
                Some('\\') => text.push(match letters.next() {
                    Some('n') => '\n',
                    Some('t') => '\t',
                    Some('r') => '\r',
                    Some('b') => '\u{8}',
                    Some('f') => '\u{c}',
                    Some('u') => {
                        let digits: String = letters.by_ref().take(4).collect();
                        let code = u32::from_str_radix(&digits, 16).ok();
                        code.and_then(char::from_u32).ok_or("no such character")?
                    }
                    Some(other) => other,
                    None => return self.fault("the end of a string"),
                }),
                Some(letter) => text.push(letter),
            }
        }
        self.rest = letters.as_str();
        self.skip_blanks();
        Ok(Some(text))
    }

    /// Items up to a closing sign.
    pub(super) fn until<T>(
        &mut self,
        close: &str,
        mut item: impl FnMut(&mut Self) -> Result<T, Fault>,
    ) -> Result<Vec<T>, Fault> {
        let mut items = Vec::new();
        while !self.take(close) {
            if self.at_end() {
                return self.fault(close);
            }
            items.push(item(self)?);
        }
        Ok(items)
    }

    pub(super) fn ty(&mut self) -> Result<Type, Fault> {
        let ty = if self.take("[") {
            let inner = self.ty()?;
            self.expect("]")?;
            Type::list(inner)
        } else {
            Type::named(&self.name()?)
        };
        Ok(if self.take("!") { ty.non_null() } else { ty })
    }

    pub(super) fn literal(&mut self) -> Result<Literal, Fault> {
        let value = self.literal_value()?;
        Ok(Literal { value, place: self.place()? })
    }

    fn literal_value(&mut self) -> Result<LiteralValue, Fault> {
        if let Some(text) = self.string()? {
            return Ok(LiteralValue::String(text));
        }
        if let Some(number) = self.number() {
            return Ok(match number.parse() {
                Ok(value) => LiteralValue::Int(value),
                Err(_) => LiteralValue::Float(number),
            });
        }
        if self.take("$") {
            return Ok(LiteralValue::Variable(self.name()?));
        }
        if self.take("[") {
            return Ok(LiteralValue::List(self.until("]", Self::literal)?));
        }
        if self.take("{") {
            return Ok(LiteralValue::Object(self.until("}", Self::argument)?));
        }
        let name = self.name()?;
        Ok(match name.as_str() {
            "null" => LiteralValue::Null,
            "true" => LiteralValue::Bool(true),
            "false" => LiteralValue::Bool(false),
            _ => LiteralValue::Enum(name),
        })
    }

    /// `name: literal`
    pub(super) fn argument(&mut self) -> Result<(String, Literal), Fault> {
        let name = self.name()?;
        self.expect(":")?;
        Ok((name, self.literal()?))
    }
}
