//! How much a workflow will take, by the library: its numbers, its refusals, and what is written into an answer.

use sarthule::{figures, word, Answer, Figures};

extern "C" {
    fn sarthule_figures(pack: *const u8, pack_len: usize, workflow: u32, answer: *mut u8, answer_len: usize) -> u32;
}

const RETURN: (u8, u32) = (0xB0, 0);
const BEGIN: (u8, u32) = (0x60, 0);
const END: (u8, u32) = (0x70, 0);
const PUT: (u8, u32) = (0x90, 1);
const NONE: Figures = Figures { turns: 0, rows: [0; 8] };

/// A pack of one workflow.
fn pack(code: &[(u8, u32)]) -> Vec<u8> {
    let mut bytes = vec![1];
    bytes.extend((code.len() as u16).to_le_bytes());
    bytes.extend(code.iter().map(|(byte, _)| byte));
    bytes.extend(code.iter().flat_map(|(_, word)| word.to_le_bytes()));
    bytes
}

fn done(turns: u32, rows: [u32; 8]) -> (Answer, Figures) {
    (Answer::Done, Figures { turns, rows })
}

fn refused(question: u32, instruction: u32) -> (Answer, Figures) {
    (Answer::Refused { question, workflow: 0, instruction }, NONE)
}

#[test]
fn the_figures_of_some_workflows() {
    let of = |code: &[(u8, u32)]| figures(&pack(code), 0);
    assert_eq!(of(&[(0x60, 7), END, RETURN]), done(2, [0, 0, 0, 0, 0, 0, 0, 1]));
    assert_eq!(of(&[BEGIN, PUT, PUT, END, RETURN]), done(2, [3, 0, 0, 0, 0, 0, 0, 0]));
    assert_eq!(of(&[(0x50, 0x30), BEGIN, END, RETURN]), done(3, [1, 0, 0, 0, 0, 0, 0, 0]));
    assert_eq!(of(&[RETURN, BEGIN, END, RETURN]), done(1, [0; 8]));
    let mut jumps = vec![(0x40, 255 << 4); 255];
    jumps.push(RETURN);
    assert_eq!(of(&jumps), done(256, [0; 8]));
}

#[test]
fn a_refusal_has_no_figures() {
    assert_eq!(figures(&[], 0), refused(1, 0));
    assert_eq!(figures(&pack(&[BEGIN, END, (0xB8, 0)]), 1), refused(4, 2));
    assert_eq!(figures(&pack(&[BEGIN, END]), 0), refused(8, 1));
    for workflow in [1, 256, 65_536, u32::MAX] {
        assert_eq!(figures(&pack(&[RETURN]), workflow), refused(17, 0));
    }
}

/// The call on an answer of so many bytes, each 0xAA before: the number returned and what then stands there.
fn into(pack: &[u8], bytes: usize) -> (u32, Vec<u8>) {
    let mut answer = vec![0xAA; bytes];
    let number = unsafe { sarthule_figures(pack.as_ptr(), pack.len(), 0, answer.as_mut_ptr(), answer.len()) };
    (number, answer)
}

#[test]
fn an_answer_has_48_bytes() {
    let pack = pack(&[(0x60, 7), PUT, END, RETURN]);
    for bytes in [0, 12, 28, 47] {
        assert_eq!(into(&pack, bytes), (100, vec![0xAA; bytes]));
    }
    let (number, answer) = into(&pack, 60);
    let words: Vec<u32> = (0..12).map(|i| word(&answer, i)).collect();
    assert_eq!((number, words), (0, vec![0, 0, 0, 2, 0, 0, 0, 0, 0, 0, 0, 2]));
    assert_eq!(answer[48..], [0xAA; 12]);
    let (number, answer) = into(&[], 48);
    let words: Vec<u32> = (0..12).map(|i| word(&answer, i)).collect();
    assert_eq!((number, words), (3, vec![1, 0, 0, 0, 0, 0, 0, 0, 0, 0, 0, 0]));
}
