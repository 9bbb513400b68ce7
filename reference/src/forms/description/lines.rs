//! A text as lines of words. What follows `#` is a comment; empty lines are left out.

use super::Mistake;
use crate::model::limits::NONE;

/// The lines of a text that say something, each with its number.
pub struct Lines<'a> {
    rest: std::iter::Enumerate<std::str::Lines<'a>>,
    read: usize,
}

impl<'a> Lines<'a> {
    pub fn new(text: &'a str) -> Lines<'a> {
        Lines { rest: text.lines().enumerate(), read: 0 }
    }

    /// The next line with a word in it, or none at the end.
    pub fn next_if_any(&mut self) -> Option<Line<'a>> {
        for (index, line) in self.rest.by_ref() {
            self.read = index + 1;
            let words = words(line.split('#').next().unwrap_or(""));
            if !words.is_empty() {
                return Some(Line { number: self.read, words, next: 0 });
            }
        }
        None
    }

    /// A mistake in the last line read if there are more than can be said.
    pub fn at_most(&self, count: usize, most: usize, what: &str) -> Result<(), Mistake> {
        at_most(self.read, count, most, what)
    }

    pub fn next_line(&mut self) -> Result<Line<'a>, Mistake> {
        let end = self.read + 1;
        self.next_if_any()
            .ok_or_else(|| Mistake { line: end, message: "the text ends too early".to_string() })
    }
}

/// A mistake in this line if there are more than the field that counts them can say.
fn at_most(line: usize, count: usize, most: usize, what: &str) -> Result<(), Mistake> {
    if count <= most {
        return Ok(());
    }
    Err(Mistake { line, message: format!("more than {most} {what}") })
}

/// Words are parted by spaces; each of `( ) , ; /` is a word of its own.
fn words(line: &str) -> Vec<&str> {
    let mut words = Vec::new();
    let mut rest = line.trim_start();
    while !rest.is_empty() {
        let is_mark = |character: char| "(),;/".contains(character);
        let length = if rest.starts_with(is_mark) {
            1
        } else {
            rest.find(|character: char| character.is_whitespace() || is_mark(character))
                .unwrap_or(rest.len())
        };
        words.push(&rest[..length]);
        rest = rest[length..].trim_start();
    }
    words
}

/// One line, read word by word.
pub struct Line<'a> {
    number: usize,
    words: Vec<&'a str>,
    next: usize,
}

impl<'a> Line<'a> {
    pub fn mistake(&self, message: String) -> Mistake {
        Mistake { line: self.number, message }
    }

    pub fn peek(&self) -> Option<&'a str> {
        self.words.get(self.next).copied()
    }

    pub fn word(&mut self) -> Result<&'a str, Mistake> {
        let word = self.peek().ok_or_else(|| self.mistake("a word is missing".to_string()))?;
        self.next += 1;
        Ok(word)
    }

    /// Whether the next word is this one; if so it is read.
    pub fn takes(&mut self, word: &str) -> bool {
        let found = self.peek() == Some(word);
        self.next += usize::from(found);
        found
    }

    pub fn expect(&mut self, word: &str) -> Result<(), Mistake> {
        if self.takes(word) {
            return Ok(());
        }
        let found =
            self.peek().map_or("the end of the line".to_string(), |word| format!("'{word}'"));
        Err(self.mistake(format!("'{word}' is expected, not {found}")))
    }

    pub fn end(&self) -> Result<(), Mistake> {
        match self.peek() {
            None => Ok(()),
            Some(word) => Err(self.mistake(format!("'{word}' is not expected"))),
        }
    }

    /// A number, at most `most`.
    pub fn number(&mut self, most: u32) -> Result<u32, Mistake> {
        let word = self.word()?;
        self.parsed(word, word, most)
    }

    /// A number after a letter, as in `c0` and `v12`.
    pub fn lettered(&mut self, letter: char, most: u32) -> Result<u32, Mistake> {
        let word = self.word()?;
        match word.strip_prefix(letter) {
            Some(digits) => self.parsed(word, digits, most),
            None => Err(self.mistake(format!("'{word}' does not start with '{letter}'"))),
        }
    }

    fn parsed(&self, word: &str, digits: &str, most: u32) -> Result<u32, Mistake> {
        let plain = digits.bytes().all(|byte| byte.is_ascii_digit());
        match digits.parse() {
            Ok(number) if plain && number <= most => Ok(number),
            _ => Err(self.mistake(format!("'{word}' is not a number from 0 to {most}"))),
        }
    }

    /// The number of a record, which has to be its place.
    pub fn place(&mut self, expected: usize) -> Result<(), Mistake> {
        let number = self.number(u32::MAX)?;
        if number as usize == expected {
            return Ok(());
        }
        Err(self.mistake(format!("the number here is {expected}, not {number}")))
    }

    /// A mistake if there are more than the field that counts them can say.
    pub fn at_most(&self, count: usize, most: usize, what: &str) -> Result<(), Mistake> {
        at_most(self.number, count, most, what)
    }

    /// A byte, or `none` for 255.
    pub fn byte_or_none(&mut self) -> Result<u8, Mistake> {
        if self.takes("none") {
            return Ok(NONE);
        }
        Ok(self.number(u32::from(NONE))? as u8)
    }

    /// Numbers with commas, as the bits of a set of marks of this width.
    pub fn marks(&mut self, width: u32) -> Result<u16, Mistake> {
        let mut marks = 0;
        loop {
            marks |= 1 << self.number(width - 1)?;
            if !self.takes(",") {
                return Ok(marks);
            }
        }
    }
}

/// The set bits of a set of marks, with commas.
pub fn marks_to_text(marks: u16) -> String {
    let numbers: Vec<String> =
        (0..16).filter(|bit| marks >> bit & 1 == 1).map(|bit| bit.to_string()).collect();
    numbers.join(",")
}
