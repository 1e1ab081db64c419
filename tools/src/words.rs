//! The words of a line, taken one after the other by what is expected of them.

use crate::fault::Expected;
use crate::scan::{self, Line, Word};

/// A word that is not what was expected there.
pub type Missing = (Word, Expected);

/// A line and how far it is taken.
pub struct Words<'a> {
    line: &'a Line,
    next: usize,
}

impl<'a> Words<'a> {
    pub fn of(line: &'a Line) -> Words<'a> {
        Words { line, next: 0 }
    }

    pub fn peek(&self) -> &'a Word {
        self.line.words.get(self.next).unwrap_or(&self.line.end)
    }

    pub fn at_end(&self) -> bool {
        self.next >= self.line.words.len()
    }

    pub fn take(&mut self) -> Word {
        let word = self.peek().clone();
        self.next += 1;
        word
    }

    /// The next word, if a test passes it.
    fn matching<T>(
        &mut self,
        test: impl Fn(&str) -> Option<T>,
        expected: Expected,
    ) -> Result<T, Missing> {
        let at_end = self.at_end();
        let word = self.take();
        let found = if at_end { None } else { test(&word.text) };
        found.ok_or((word, expected))
    }

    pub fn name(&mut self) -> Result<Word, Missing> {
        let word = self.peek().clone();
        self.matching(|text| scan::is_name(text).then_some(()), Expected::Name)?;
        Ok(word)
    }

    pub fn label(&mut self) -> Result<Word, Missing> {
        let word = self.peek().clone();
        self.matching(|text| scan::is_name(text).then_some(()), Expected::Label)?;
        Ok(word)
    }

    pub fn register(&mut self) -> Result<u8, Missing> {
        let register = |text: &str| match text.as_bytes() {
            [b'r', digit @ b'0'..=b'7'] => Some(digit - b'0'),
            _ => None,
        };
        self.matching(register, Expected::Register)
    }

    pub fn number(&mut self) -> Result<u32, Missing> {
        self.matching(scan::number, Expected::Number)
    }

    /// A number between two bounds.
    pub fn number_in(&mut self, least: u32, most: u32, expected: Expected) -> Result<u32, Missing> {
        let bounded =
            |text: &str| scan::number(text).filter(|number| (least..=most).contains(number));
        self.matching(bounded, expected)
    }

    pub fn keyword(&mut self, word: &'static str) -> Result<(), Missing> {
        self.matching(|text| (text == word).then_some(()), Expected::Keyword(word))
    }

    pub fn end(&mut self) -> Result<(), Missing> {
        if self.at_end() {
            return Ok(());
        }
        Err((self.take(), Expected::EndOfLine))
    }

    pub fn file_name(&mut self) -> Result<String, Missing> {
        self.matching(|text| Some(text.to_string()), Expected::FileName)
    }

    /// The place of the next word among the names known so far.
    pub fn one_of(&mut self, names: &[Word]) -> Result<usize, Missing> {
        let place = |text: &str| names.iter().position(|name| name.text == text);
        self.matching(place, Expected::KnownRequest)
    }

    /// A number, or the place of a name.
    pub fn number_or_one_of(
        &mut self,
        names: &[String],
        expected: Expected,
    ) -> Result<u32, Missing> {
        let place = |text: &str| names.iter().position(|name| name == text);
        let number = |text: &str| {
            place(text)
                .map(|at| at as u32)
                .or_else(|| scan::number(text))
        };
        self.matching(number, expected)
    }
}
