//! One line of a text: its words, taken one after the other.

use std::collections::VecDeque;

#[derive(Clone, Debug, PartialEq, Eq)]
pub enum Word {
    Plain(String),
    Quoted(String),
}

impl Word {
    fn shown(&self) -> String {
        match self {
            Word::Plain(word) => word.clone(),
            Word::Quoted(word) => format!("\"{word}\""),
        }
    }
}

pub struct Line {
    words: VecDeque<Word>,
}

impl Line {
    /// The words before the comment. A quoted word holds blanks and the signs of comments.
    pub fn split(text: &str) -> Result<Line, String> {
        let mut words = VecDeque::new();
        let mut rest = text.trim_start();
        while let Some(first) = rest.chars().next() {
            if first == ';' || first == '#' {
                break;
            }
            let (word, after) = if first == '"' { quoted(rest)? } else { plain(rest) };
            words.push_back(word);
            rest = after.trim_start();
        }
        Ok(Line { words })
    }

    pub fn is_empty(&self) -> bool {
        self.words.is_empty()
    }

    /// The next word; `what` names the field that it should hold.
    pub fn word(&mut self, what: &str) -> Result<Word, String> {
        self.words.pop_front().ok_or_else(|| format!("{what} is missing"))
    }

    /// The next word, which must not be quoted.
    pub fn plain(&mut self, what: &str) -> Result<String, String> {
        match self.word(what)? {
            Word::Plain(word) => Ok(word),
            word => Err(format!("{what} must not be in quotes: {}", word.shown())),
        }
    }

    /// Takes the next word if it is this one.
    pub fn takes(&mut self, word: &str) -> bool {
        let matches = self.words.front() == Some(&Word::Plain(word.to_string()));
        if matches {
            self.words.pop_front();
        }
        matches
    }

    /// Takes the next word, which must be this one.
    pub fn expect(&mut self, word: &str) -> Result<(), String> {
        if self.takes(word) {
            return Ok(());
        }
        match self.words.front() {
            Some(found) => Err(format!("`{word}` expected, `{}` found", found.shown())),
            None => Err(format!("`{word}` is missing")),
        }
    }

    /// Takes one of two words and says whether it was the first.
    pub fn either(&mut self, first: &str, second: &str) -> Result<bool, String> {
        if self.takes(first) {
            return Ok(true);
        }
        if self.takes(second) {
            return Ok(false);
        }
        match self.words.front() {
            Some(found) => Err(format!("`{first}` or `{second}` expected, `{}` found", found.shown())),
            None => Err(format!("`{first}` or `{second}` is missing")),
        }
    }

    /// The next word as a number that fits its field.
    pub fn number<T: TryFrom<i64>>(&mut self, what: &str) -> Result<T, String> {
        number(what, &self.plain(what)?)
    }

    /// The next word as a number, or as the word that stands for -1.
    pub fn number_or(&mut self, what: &str, minus_one: &str) -> Result<i16, String> {
        if self.takes(minus_one) {
            return Ok(-1);
        }
        self.number(what)
    }

    pub fn end(&self) -> Result<(), String> {
        match self.words.front() {
            Some(word) => Err(format!("`{}` is too much", word.shown())),
            None => Ok(()),
        }
    }
}

/// The text up to a blank, a comment or a quote.
fn plain(text: &str) -> (Word, &str) {
    let ends = |sign: char| sign.is_whitespace() || matches!(sign, ';' | '#' | '"');
    let length = text.find(ends).unwrap_or(text.len());
    let (word, after) = text.split_at(length);
    (Word::Plain(word.to_string()), after)
}

/// The text between two quotes. A word that touches the second one would be hard to see, so there must be none.
fn quoted(text: &str) -> Result<(Word, &str), String> {
    let inner = text.strip_prefix('"').unwrap_or(text);
    let (word, after) = inner.split_once('"').ok_or("a quote is not closed")?;
    if after.chars().next().is_some_and(|sign| !sign.is_whitespace() && sign != ';' && sign != '#') {
        return Err("no blank after a quote".to_string());
    }
    Ok((Word::Quoted(word.to_string()), after))
}

/// A decimal number without plus and without leading zeros.
pub fn number<T: TryFrom<i64>>(what: &str, word: &str) -> Result<T, String> {
    let digits = word.strip_prefix('-').unwrap_or(word);
    let is_number = !digits.is_empty() && digits.bytes().all(|byte| byte.is_ascii_digit());
    if !is_number || (digits.starts_with('0') && word != "0") {
        return Err(format!("{what} is no number: `{word}`"));
    }
    let value = word.parse::<i64>().ok().and_then(|value| T::try_from(value).ok());
    value.ok_or_else(|| format!("{what} is out of range: `{word}`"))
}
