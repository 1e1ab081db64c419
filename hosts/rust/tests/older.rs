//! Older files, whose rows do not stand by rising key: what the host and the library make of them.

use sarthule::{order, question, retry, store_bytes, Answer, EMPTY};
use std::fs;
use std::os::unix::fs::MetadataExt;
use std::path::{Path, PathBuf};
use std::process::Command;

const P: usize = 2;
const C: usize = 20;
const MOVE: [&str; 6] = ["move", "1", "6", "2", "--id", "7"];

extern "C" {
    fn sarthule_order(store: *mut u8, store_len: usize, answer: *mut u8, answer_len: usize) -> u32;
}

/// A file of the host, in a place of the test's own.
struct File(PathBuf);

impl File {
    /// Three moves, of ids in no order, between shelves that no two of them share.
    fn new(name: &str) -> Self {
        let file = Self(Path::new(env!("CARGO_TARGET_TMPDIR")).join(name));
        file.says(&["init", "2", "20"], "", "");
        file.says(&["move", "90", "50", "30", "--id", "8"], "reply 8 30\n", "");
        file.says(&["move", "30", "70", "4", "--id", "2"], "reply 2 4\n", "");
        file.says(&["move", "10", "20", "7", "--id", "300"], "reply 300 7\n", "");
        file
    }

    fn run(&self, words: &[&str]) -> (Option<i32>, String, String) {
        let done = Command::new(env!("CARGO_BIN_EXE_stock")).arg(&self.0).args(words).output().expect("the host runs");
        let text = |bytes| String::from_utf8(bytes).expect("text");
        (done.status.code(), text(done.stdout), text(done.stderr))
    }

    fn says(&self, words: &[&str], out: &str, error: &str) {
        assert_eq!(self.run(words), (Some(0), out.into(), error.into()), "{words:?}");
    }

    fn refuses(&self, words: &[&str], error: &str) {
        assert_eq!(self.run(words), (Some(1), String::new(), error.into()), "{words:?}");
    }

    fn bytes(&self) -> Vec<u8> {
        fs::read(&self.0).expect("a file")
    }

    fn stand(&self, bytes: &[u8]) {
        fs::write(&self.0, bytes).expect("a file that can be written");
    }

    /// What changes whenever the file is written, even with the same bytes.
    fn written(&self) -> (u64, i64, i64) {
        let status = fs::metadata(&self.0).expect("a file");
        (status.ino(), status.mtime(), status.mtime_nsec())
    }

    fn line(&self, words: &str) -> String {
        format!("{}: {words}\n", self.0.display())
    }
}

fn key_at(partition: usize, row: usize) -> usize {
    3 + 2 * (P + 1) + 8 * (partition * C + row)
}

fn value_at(partition: usize, row: usize) -> usize {
    key_at(P + 1, 0) + 4 * (partition * C + row)
}

/// Two rows of a partition change places, keys and values.
fn swap_rows(bytes: &mut [u8], partition: usize, first: usize, second: usize) {
    for (at, width) in [(key_at as fn(usize, usize) -> usize, 8), (value_at, 4)] {
        let (first, second) = (at(partition, first), at(partition, second));
        (0..width).for_each(|i| bytes.swap(first + i, second + i));
    }
}

#[test]
fn an_older_file_is_put_in_order_once() {
    let file = File::new("once");
    let ordered = file.bytes();
    let shown = file.run(&["show"]).1;
    let zero = format!("refused 24: {}\n", question(24));
    let (put, not_yet) = (file.line("rows put in order"), file.line("rows not in order yet"));
    for (partition, first, second) in [(0, 0, 1), (0, 0, 5), (1, 4, 5), (2, 0, 1), (2, 0, 14)] {
        let mut older = ordered.clone();
        swap_rows(&mut older, partition, first, second);
        file.stand(&older);
        file.says(&["show"], &shown, &not_yet);
        assert_eq!(file.bytes(), older, "show writes nothing");
        // also where the command itself is refused
        file.refuses(&["move", "1", "1", "5", "--id", "0"], &(put.clone() + &zero));
        assert_eq!(file.bytes(), ordered);
        let before = file.written();
        file.refuses(&["move", "1", "1", "5", "--id", "0"], &zero);
        file.says(&["show"], &shown, "");
        assert_eq!((file.bytes(), file.written()), (ordered.clone(), before), "a file in order is not written");
    }
}

#[test]
fn a_command_goes_on_from_an_older_file() {
    let file = File::new("goes-on");
    let mut older = file.bytes();
    file.says(&MOVE, "reply 7 2\n", "");
    let moved = file.bytes();
    (0..3).for_each(|partition| swap_rows(&mut older, partition, 1, 4));
    file.stand(&older);
    file.says(&MOVE, "reply 7 2\n", &file.line("rows put in order"));
    assert_eq!(file.bytes(), moved);
    file.says(&["retry", "7"], "reply 7 2\n", "");
    assert_eq!(file.bytes(), moved);
}

#[test]
fn a_wrong_file_is_refused_and_stays() {
    let file = File::new("wrong");
    let ordered = file.bytes();
    let mut key_twice = ordered.clone();
    key_twice.copy_within(key_at(1, 0)..key_at(1, 1), key_at(1, 3));
    // the book's last row is gone and not counted
    let mut row_lost = ordered.clone();
    row_lost[key_at(P, 14)..key_at(P, 15)].fill(0);
    row_lost[value_at(P, 14)..value_at(P, 15)].fill(0);
    row_lost[3 + 2 * P] -= 1;
    for (bytes, number) in [(key_twice, 11), (row_lost, 12)] {
        file.stand(&bytes);
        for words in [&MOVE[..], &["retry", "8"], &["show"]] {
            file.refuses(words, &format!("refused {number}: {}\n", question(number)));
            assert_eq!(file.bytes(), bytes, "{words:?}");
        }
    }
}

#[test]
fn the_library_puts_a_store_in_order() {
    let ordered = File::new("library").bytes()[..store_bytes(P, C)].to_vec();
    let mut store = ordered.clone();
    assert_eq!((order(&mut store), &store), (Answer::Done, &ordered), "a store in order keeps its bytes");
    swap_rows(&mut store, 1, 0, 3);
    let older = store.clone();
    let refused = Answer::Refused { question: 11, workflow: 0, instruction: 0 };
    // a pack of one workflow, RETURN
    let pack = [1, 1, 0, 0xB0, 0, 0, 0, 0];
    let mut slots = EMPTY;
    assert_eq!((retry(&pack, &store, &mut slots, 0, 8), &store), (refused, &older), "other calls put 11 whole");
    assert_eq!((order(&mut store), &store), (Answer::Done, &ordered));
    assert_eq!(retry(&pack, &store, &mut slots, 0, 8), Answer::Done);
    store[3] = 21;
    let wrong = store.clone();
    assert_eq!((order(&mut store), store), (refused, wrong), "refused, nothing changes");
}

/// The call itself, with an answer of so many bytes that hold 0xAA before.
fn order_with(store: &mut [u8], bytes: usize) -> (u32, Vec<u8>) {
    let mut answer = vec![0xAA; bytes];
    // Safety: both pointers and lengths are those of slices that are apart from each other.
    let number = unsafe { sarthule_order(store.as_mut_ptr(), store.len(), answer.as_mut_ptr(), answer.len()) };
    (number, answer)
}

#[test]
fn the_answer_is_looked_at_first() {
    let mut older = File::new("answer").bytes()[..store_bytes(P, C)].to_vec();
    swap_rows(&mut older, 2, 3, 9);
    let mut store = older.clone();
    assert_eq!(order_with(&mut store, 11), (100, vec![0xAA; 11]));
    assert_eq!(store, older, "nothing is written with an answer that is too short");
    let words = |question: u8| [&[question][..], &[0; 11], &[0xAA]].concat();
    assert_eq!(order_with(&mut store[1..], 13), (3, words(9)));
    assert_eq!(store, older);
    assert_eq!(order_with(&mut store, 13), (0, words(0)));
    assert_ne!(store, older);
}
