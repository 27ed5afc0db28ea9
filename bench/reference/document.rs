//! A reader of TOML documents: it takes every document that keeps the rules of TOML, and doesn't
//! look for breaches of them.

use crate::{refuse, Answer};
use std::collections::BTreeMap;

pub type Entries = BTreeMap<String, Value>;

/// A value; of those that no profile needs nothing is kept.
pub enum Value {
    Integer(i128),
    Text(String),
    Array(Vec<Value>),
    Table(Entries),
    Other,
}

pub fn read(text: &[u8]) -> Answer<Entries> {
    if text.len() > 1_048_576 {
        return refuse("ship.toml is too long");
    }
    let text = text.strip_prefix(b"\xef\xbb\xbf").unwrap_or(text);
    let text = String::from_utf8(text.to_vec()).or(refuse("ship.toml isn't UTF-8"))?;
    let mut reader = Reader { text: text.chars().collect(), at: 0 };
    let mut root = Entries::new();
    let mut header: Vec<String> = Vec::new();
    loop {
        reader.skip_lines();
        match reader.next() {
            None => return Ok(root),
            Some('[') => header = reader.header(&mut root)?,
            Some(_) => reader.pair(open(&mut root, &header)?)?,
        }
        reader.skip_spaces();
        if !matches!(reader.next(), None | Some('\n' | '\r' | '#')) {
            return refuse("something stands behind a value of ship.toml");
        }
    }
}

/// The table that the keys lead to; where one of them is an array of tables, by the last of these.
fn open<'a>(root: &'a mut Entries, keys: &[String]) -> Answer<&'a mut Entries> {
    let mut table = root;
    for key in keys {
        let mut value = table.entry(key.clone()).or_insert_with(|| Value::Table(Entries::new()));
        if let Value::Array(values) = value {
            value = values.last_mut().ok_or("a key of ship.toml stands twice")?;
        }
        table = match value {
            Value::Table(inner) => inner,
            _ => return refuse("a key of ship.toml stands twice"),
        };
    }
    Ok(table)
}

struct Reader {
    text: Vec<char>,
    at: usize,
}

impl Reader {
    fn next(&self) -> Option<char> {
        self.text.get(self.at).copied()
    }

    fn begins(&self, with: &str) -> bool {
        with.chars().enumerate().all(|(i, letter)| self.text.get(self.at + i) == Some(&letter))
    }

    /// Steps over a text if it stands here.
    fn take(&mut self, text: &str) -> bool {
        let there = self.begins(text);
        if there {
            self.at += text.chars().count();
        }
        there
    }

    fn skip_spaces(&mut self) {
        while matches!(self.next(), Some(' ' | '\t')) {
            self.at += 1;
        }
    }

    /// Skips spaces, ends of lines and comments.
    fn skip_lines(&mut self) {
        while let Some(letter) = self.next() {
            match letter {
                ' ' | '\t' | '\r' | '\n' => self.at += 1,
                '#' => {
                    while !matches!(self.next(), None | Some('\n')) {
                        self.at += 1;
                    }
                }
                _ => return,
            }
        }
    }

    /// A header of a table or of an element of an array of tables; gives the keys to it.
    fn header(&mut self, root: &mut Entries) -> Answer<Vec<String>> {
        let element = self.take("[[");
        if !element {
            self.take("[");
        }
        let keys = self.keys()?;
        if !self.take(if element { "]]" } else { "]" }) {
            return refuse("a header of ship.toml isn't closed");
        }
        if element {
            let (last, before) = keys.split_last().ok_or("a header of ship.toml is empty")?;
            let parent = open(root, before)?;
            match parent.entry(last.clone()).or_insert_with(|| Value::Array(Vec::new())) {
                Value::Array(values) => values.push(Value::Table(Entries::new())),
                _ => return refuse("a key of ship.toml stands twice"),
            }
        } else {
            open(root, &keys)?;
        }
        Ok(keys)
    }

    /// Keys with dots between them.
    fn keys(&mut self) -> Answer<Vec<String>> {
        let mut keys = Vec::new();
        loop {
            self.skip_spaces();
            keys.push(match self.next() {
                Some('"') => self.basic_string()?,
                Some('\'') => self.literal_string()?,
                _ => self.bare_key()?,
            });
            self.skip_spaces();
            if !self.take(".") {
                return Ok(keys);
            }
        }
    }

    fn bare_key(&mut self) -> Answer<String> {
        let begin = self.at;
        while self
            .next()
            .is_some_and(|letter| letter.is_ascii_alphanumeric() || letter == '_' || letter == '-')
        {
            self.at += 1;
        }
        if self.at == begin {
            return refuse("a key of ship.toml is empty");
        }
        Ok(self.text[begin..self.at].iter().collect())
    }

    /// A key and its value, put into a table.
    fn pair(&mut self, table: &mut Entries) -> Answer<()> {
        let keys = self.keys()?;
        if !self.take("=") {
            return refuse("a key of ship.toml has no value");
        }
        let value = self.value()?;
        let (last, before) = keys.split_last().ok_or("a key of ship.toml is empty")?;
        if open(table, before)?.insert(last.clone(), value).is_some() {
            return refuse("a key of ship.toml stands twice");
        }
        Ok(())
    }

    fn value(&mut self) -> Answer<Value> {
        self.skip_spaces();
        match self.next() {
            Some('"') if self.take("\"\"\"") => self.long_string('"').map(Value::Text),
            Some('"') => self.basic_string().map(Value::Text),
            Some('\'') if self.take("'''") => self.long_string('\'').map(Value::Text),
            Some('\'') => self.literal_string().map(Value::Text),
            Some('[') => self.array(),
            Some('{') => self.inline_table(),
            _ => Ok(self.word()),
        }
    }

    fn array(&mut self) -> Answer<Value> {
        self.take("[");
        let mut values = Vec::new();
        self.items("]", "an array of ship.toml isn't closed", |text| {
            values.push(text.value()?);
            Ok(())
        })?;
        Ok(Value::Array(values))
    }

    fn inline_table(&mut self) -> Answer<Value> {
        self.take("{");
        let mut table = Entries::new();
        self.items("}", "a table of ship.toml isn't closed", |text| text.pair(&mut table))?;
        Ok(Value::Table(table))
    }

    /// Reads items with commas between them, up to the bracket that closes them.
    fn items(
        &mut self,
        close: &str,
        unclosed: &'static str,
        mut item: impl FnMut(&mut Self) -> Answer<()>,
    ) -> Answer<()> {
        loop {
            self.skip_lines();
            if self.take(close) {
                return Ok(());
            }
            item(self)?;
            self.skip_lines();
            if !self.take(",") && self.next() != close.chars().next() {
                return refuse(unclosed);
            }
        }
    }

    /// A value that is written as one word: a whole number, or something that no profile needs.
    fn word(&mut self) -> Value {
        let begin = self.at;
        while !matches!(self.next(), None | Some(',' | ']' | '}' | '#' | '\n' | '\r')) {
            self.at += 1;
        }
        let word: String = self.text[begin..self.at].iter().collect();
        integer(word.trim_end_matches([' ', '\t'])).map_or(Value::Other, Value::Integer)
    }

    fn literal_string(&mut self) -> Answer<String> {
        self.take("'");
        let begin = self.at;
        while self.next() != Some('\'') {
            if matches!(self.next(), None | Some('\n')) {
                return refuse("a string of ship.toml isn't closed");
            }
            self.at += 1;
        }
        self.at += 1;
        Ok(self.text[begin..self.at - 1].iter().collect())
    }

    fn basic_string(&mut self) -> Answer<String> {
        self.take("\"");
        let mut text = String::new();
        loop {
            match self.next() {
                None | Some('\n') => return refuse("a string of ship.toml isn't closed"),
                Some('"') => break,
                Some('\\') => text.extend(self.escape()?),
                Some(letter) => {
                    text.push(letter);
                    self.at += 1;
                }
            }
        }
        self.at += 1;
        Ok(text)
    }

    /// A string of several lines, behind its opening quotes; up to two quotes may stand before the
    /// closing three.
    fn long_string(&mut self, quote: char) -> Answer<String> {
        let _ = self.take("\r\n") || self.take("\n");
        let closing = quote.to_string().repeat(3);
        let mut text = String::new();
        while !self.begins(&closing) || self.text.get(self.at + 3) == Some(&quote) {
            match self.next() {
                None => return refuse("a string of ship.toml isn't closed"),
                Some('\\') if quote == '"' => text.extend(self.escape()?),
                Some(letter) => {
                    text.push(letter);
                    self.at += 1;
                }
            }
        }
        self.at += 3;
        Ok(text)
    }

    /// What a backslash and what follows it stand for; nothing, where the line ends behind it.
    fn escape(&mut self) -> Answer<Option<char>> {
        self.at += 1;
        let letter = self.next().ok_or("a string of ship.toml isn't closed")?;
        self.at += 1;
        let meant = match letter {
            'b' => '\u{8}',
            't' => '\t',
            'n' => '\n',
            'f' => '\u{c}',
            'r' => '\r',
            'e' => '\u{1b}',
            '"' | '\\' => letter,
            'x' => self.code(2)?,
            'u' => self.code(4)?,
            'U' => self.code(8)?,
            ' ' | '\t' | '\r' | '\n' => {
                while matches!(self.next(), Some(' ' | '\t' | '\r' | '\n')) {
                    self.at += 1;
                }
                return Ok(None);
            }
            _ => return refuse("an escape of ship.toml has no meaning"),
        };
        Ok(Some(meant))
    }

    /// The character whose number stands here in hexadecimal digits.
    fn code(&mut self, digits: usize) -> Answer<char> {
        let end = (self.at + digits).min(self.text.len());
        let word: String = self.text[self.at..end].iter().collect();
        self.at = end;
        let number = u32::from_str_radix(&word, 16).ok();
        Ok(number.and_then(char::from_u32).ok_or("an escape of ship.toml has no meaning")?)
    }
}

/// A whole number as TOML writes it: with a sign or not, in the base 10, 16, 8 or 2, `_` between
/// digits.
fn integer(word: &str) -> Option<i128> {
    let plain = word.replace('_', "");
    let based = [("0x", 16), ("0o", 8), ("0b", 2)];
    let number = match based.iter().find(|(mark, _)| plain.starts_with(mark)) {
        Some((mark, base)) => i128::from_str_radix(plain.strip_prefix(mark)?, *base).ok()?,
        None => plain.parse().ok()?,
    };
    i64::try_from(number).ok().map(i128::from)
}
