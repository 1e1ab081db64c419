//! Nothing lost on the way (W-207): what the host's `show` adds up of stores that the library was taken to.

use sarthule::{arrival, create, store_bytes, turn, Answer, Request, Slots, EMPTY};
use std::fs;
use std::path::{Path, PathBuf};
use std::process::Command;

/// MOVE as document 01 has it, the only workflow.
const PACK: [u8; 63] = [
    1, 12, 0, 0x14, 0x60, 0x85, 0x35, 0x94, 0x75, 0x60, 0x85, 0x25, 0x91, 0x75, 0xB0, //
    0, 0, 0, 0, 0, 0, 0, 0, 4, 0, 0, 0, 2, 0, 0, 0, 5, 0, 0, 0, 0, 0, 0, 0, //
    1, 0, 0, 0, 1, 0, 0, 0, 2, 0, 0, 0, 5, 0, 0, 0, 0, 0, 0, 0, 0, 0, 0, 0,
];

const CUT: &str = "row 0 100 4294967266\nlog 0 7 0 4294967266\nunder way 7 30\n\
                   total 4294967266\namounts under way 30\ntogether 0\n";
const FINISHED: &str = "row 0 100 4294967266\nlog 0 7 0 4294967266\nrow 1 200 30\nlog 1 7 1 30\n\
                        total 0\namounts under way 0\ntogether 0\n";

/// A store and its slots, and the file in which the host is given them.
struct Stock {
    path: PathBuf,
    partitions: usize,
    rows: usize,
    store: Vec<u8>,
    slots: Slots,
}

impl Stock {
    fn fresh(name: &str, partitions: usize, rows: usize) -> Self {
        let path = Path::new(env!("CARGO_TARGET_TMPDIR")).join(name);
        let mut store = vec![0; store_bytes(partitions, rows)];
        assert_eq!(create(&mut store, partitions, rows), Answer::Done);
        Self { path, partitions, rows, store, slots: EMPTY }
    }

    /// The whole case of document 01 up to its first block.
    fn cut(name: &str) -> Self {
        let mut stock = Self::fresh(name, 2, 5);
        stock.arrives(0, 7, 30);
        stock.turns(0, 2);
        stock
    }

    /// A move of so much from shelf 100 to shelf 200 is booked and started in the slot.
    fn arrives(&mut self, slot: usize, id: u32, amount: u32) {
        let request = Request { id, workflow: 0, arguments: [100, 200, amount, 0] };
        assert_eq!(arrival(&PACK, &mut self.store, &mut self.slots, slot, request), Answer::Done);
    }

    /// The second turn of an agent does the first block, the third the second one.
    fn turns(&mut self, slot: usize, n: usize) {
        for _ in 0..n {
            assert_eq!(turn(&PACK, &mut self.store, &mut self.slots, slot), Answer::Moved);
        }
    }

    fn key_at(&self, partition: usize, row: usize) -> usize {
        3 + 2 * (self.partitions + 1) + 8 * (partition * self.rows + row)
    }

    fn value_at(&self, partition: usize, row: usize) -> usize {
        self.key_at(self.partitions + 1, 0) + 4 * (partition * self.rows + row)
    }

    /// Two rows of the book change places, keys and values.
    fn swap_booked(&mut self, first: usize, second: usize) {
        let book = self.partitions;
        let keys = (self.key_at(book, first), self.key_at(book, second));
        let values = (self.value_at(book, first), self.value_at(book, second));
        (0..8).for_each(|i| self.store.swap(keys.0 + i, keys.1 + i));
        (0..4).for_each(|i| self.store.swap(values.0 + i, values.1 + i));
    }

    fn write(&self) {
        fs::write(&self.path, [&self.store[..], &self.slots].concat()).expect("a file that can be written");
    }

    fn run(&self, words: &[&str]) -> (Option<i32>, String, String) {
        let host = env!("CARGO_BIN_EXE_stock");
        let done = Command::new(host).arg(&self.path).args(words).output().expect("the host runs");
        let text = |bytes| String::from_utf8(bytes).expect("text");
        (done.status.code(), text(done.stdout), text(done.stderr))
    }

    /// What `show` prints of the store and slots as they are now, and that it ends with 0.
    fn shows(&self, out: &str, error: &str) {
        self.write();
        assert_eq!(self.run(&["show"]), (Some(0), out.into(), error.into()));
    }

    /// What `show` prints of a store that something else wrote to, and that it says so and ends with 1.
    fn comes_to_1(&self, out: &str) {
        self.write();
        let error = self.line("data and amounts under way come to 1, not to 0");
        assert_eq!(self.run(&["show"]), (Some(1), out.into(), error));
    }

    fn line(&self, words: &str) -> String {
        format!("{}: {words}\n", self.path.display())
    }
}

#[test]
fn a_fresh_store_comes_to_0() {
    let mut stock = Stock::fresh("lost-fresh", 2, 5);
    stock.shows("total 0\namounts under way 0\ntogether 0\n", "");
    stock.arrives(0, 7, 30);
    stock.turns(0, 1);
    stock.shows("total 0\namounts under way 0\ntogether 0\n", "");
}

#[test]
fn the_case_cut_behind_its_first_block() {
    let mut stock = Stock::cut("lost-cut");
    stock.shows(CUT, "");
    // the amount is under way by what is logged, whether an agent is there or not
    stock.slots = EMPTY;
    stock.shows(CUT, "");
    assert_eq!(stock.run(&["retry", "7"]), (Some(0), "reply 7 30\n".into(), String::new()));
    assert_eq!(stock.run(&["show"]), (Some(0), FINISHED.into(), String::new()));
}

#[test]
fn a_value_one_higher_is_noticed() {
    let mut stock = Stock::cut("lost-one-higher");
    // by rising key the data row stands behind the log row
    let at = stock.value_at(0, 1);
    stock.store[at] += 1;
    let out = "row 0 100 4294967267\nlog 0 7 0 4294967266\nunder way 7 30\n\
               total 4294967267\namounts under way 30\ntogether 1\n";
    stock.comes_to_1(out);
}

#[test]
fn a_row_in_a_partition_without_moves_is_noticed() {
    let mut stock = Stock::fresh("lost-another-row", 8, 5);
    let (key, value) = (stock.key_at(7, 0), stock.value_at(7, 0));
    stock.store[3 + 2 * 7] = 1;
    stock.store[key..key + 8].copy_from_slice(&((1 << 63) + 100u64).to_le_bytes());
    stock.store[value] = 1;
    stock.comes_to_1("row 7 100 1\ntotal 1\namounts under way 0\ntogether 1\n");
}

#[test]
fn several_requests_by_rising_id() {
    let mut stock = Stock::fresh("lost-several", 2, 20);
    // 8192 has the log key of step 1 of id 1 in the book, which is no partition: 1 is under way all the same
    for (slot, id, amount, turns) in [(0, 9, u32::MAX, 2), (1, 1, 5, 2), (2, 8192, 1000, 1), (3, 5, 70, 3)] {
        stock.arrives(slot, id, amount);
        stock.turns(slot, turns);
    }
    let out = "row 0 100 4294967222\nlog 0 1 0 4294967292\nlog 0 5 0 4294967222\nlog 0 9 0 1\n\
               row 1 200 70\nlog 1 5 1 70\n\
               under way 1 5\nunder way 9 4294967295\ntotal 4294967292\namounts under way 4\ntogether 0\n";
    stock.shows(out, "");
    // an older file, whose book has the five rows of 9 before those of 1
    (0..5).for_each(|row| stock.swap_booked(row, row + 10));
    stock.shows(out, &stock.line("rows not in order yet"));
}
