//! A text taken apart into lines of words, each with its place.

/// A word of the text and where it stands; lines and columns count from 1.
#[derive(Clone, Debug, PartialEq, Eq)]
pub struct Word {
    pub text: String,
    pub line: usize,
    pub column: usize,
}

/// The words of one line, and the place behind the last of them.
#[derive(Clone, Debug)]
pub struct Line {
    pub words: Vec<Word>,
    pub end: Word,
}

/// How the end of a line is called where a word was expected.
pub const END_OF_LINE: &str = "end of line";

/// All lines that have a word, without comments, and the place behind the last line.
pub fn lines(text: &str) -> (Vec<Line>, Word) {
    let mut found = Vec::new();
    let mut count = 0;
    for (index, line) in text.lines().enumerate() {
        count = index + 1;
        let line = scan_line(line, count);
        if !line.words.is_empty() {
            found.push(line);
        }
    }
    let end = word("end of file", count + 1, 1);
    (found, end)
}

fn scan_line(text: &str, line: usize) -> Line {
    let mut words: Vec<Word> = Vec::new();
    let mut inside = false;
    let mut column = 0;
    for character in text.chars().take_while(|&c| c != ';') {
        column += 1;
        if character.is_whitespace() {
            inside = false;
            continue;
        }
        if !inside {
            words.push(word("", line, column));
        }
        if let Some(last) = words.last_mut() {
            last.text.push(character);
        }
        // A label may be followed by its instruction without a space.
        inside = character != ':';
    }
    Line {
        words,
        end: word(END_OF_LINE, line, column + 1),
    }
}

fn word(text: &str, line: usize, column: usize) -> Word {
    Word {
        text: text.to_string(),
        line,
        column,
    }
}

/// A name: a letter, then letters, digits, `_` or `-`.
pub fn is_name(text: &str) -> bool {
    let mut characters = text.chars();
    let first = characters.next().is_some_and(|c| c.is_ascii_alphabetic());
    first && characters.all(|c| c.is_ascii_alphanumeric() || c == '_' || c == '-')
}

/// A number of 32 bits, decimal or hexadecimal behind `0x`.
pub fn number(text: &str) -> Option<u32> {
    let (digits, radix) = match text.strip_prefix("0x") {
        Some(digits) => (digits, 16),
        None => (text, 10),
    };
    // The standard parser also takes a sign, which the text forms do not have.
    if !digits.chars().all(|c| c.is_digit(radix)) {
        return None;
    }
    u32::from_str_radix(digits, radix).ok()
}
