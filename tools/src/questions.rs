//! The questions of documents 01 and 02 in their words, by number.

use reference::refusal::QUESTIONS;

/// The documents' words for a question; empty for a number they do not have.
pub fn question(number: u32) -> &'static str {
    let index = (number as usize).wrapping_sub(1);
    QUESTIONS.get(index).copied().unwrap_or("")
}
