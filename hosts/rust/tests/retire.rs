//! Retiring (W-209), by the library: what is removed and what stays, its refusals in their sequence, and its buffers.

use sarthule::{
    add, arrival, create, done, reply, retire, retry, store_bytes, take, turn, Answer, List, Request, Slots, EMPTY, FLOOR_KEY,
    NONE_LISTED,
};

/// MOVE as document 01 has it, the only workflow.
const PACK: [u8; 63] = [
    1, 12, 0, 0x14, 0x60, 0x85, 0x35, 0x94, 0x75, 0x60, 0x85, 0x25, 0x91, 0x75, 0xB0, //
    0, 0, 0, 0, 0, 0, 0, 0, 4, 0, 0, 0, 2, 0, 0, 0, 5, 0, 0, 0, 0, 0, 0, 0, //
    1, 0, 0, 0, 1, 0, 0, 0, 2, 0, 0, 0, 5, 0, 0, 0, 0, 0, 0, 0, 0, 0, 0, 0,
];
const DATA: u64 = 1 << 63;
const BOOK: usize = 2;

extern "C" {
    fn sarthule_retire(
        pack: *const u8,
        pack_len: usize,
        store: *mut u8,
        store_len: usize,
        slots: *const u8,
        slots_len: usize,
        list: *const u8,
        list_len: usize,
        floor: u32,
        answer: *mut u8,
        answer_len: usize,
    ) -> u32;
}

fn refused(question: u32) -> Answer {
    Answer::Refused { question, workflow: 0, instruction: 0 }
}

/// What the calls are lent: a store of two partitions.
#[derive(Clone, PartialEq, Debug)]
struct Lent {
    rows: usize,
    store: Vec<u8>,
    slots: Slots,
    list: List,
}

impl Lent {
    /// A store of so many rows in which these ids have moved 5 each from shelf 100 to shelf 200.
    fn moved(rows: usize, ids: &[u32]) -> Self {
        let mut lent = Self { rows, store: vec![0; store_bytes(2, rows)], slots: EMPTY, list: NONE_LISTED };
        assert_eq!(create(&mut lent.store, 2, rows), Answer::Done);
        ids.iter().for_each(|id| lent.moves(*id));
        lent
    }

    fn arrives(&mut self, slot: usize, id: u32, workflow: u32) -> Answer {
        let request = Request { id, workflow, arguments: [100, 200, 5, 0] };
        arrival(&PACK, &mut self.store, &mut self.slots, slot, request)
    }

    fn turns(&mut self, slot: usize, n: usize) {
        for _ in 0..n {
            assert_ne!(turn(&PACK, &mut self.store, &mut self.slots, slot), refused(21));
        }
    }

    /// A whole move; its fourth turn replies.
    fn moves(&mut self, id: u32) {
        assert_eq!(self.arrives(0, id, 0), Answer::Done);
        self.turns(0, 4);
        assert_eq!(self.slots, EMPTY);
    }

    fn retire(&mut self, floor: u32) -> Answer {
        retire(&PACK, &mut self.store, &self.slots, &self.list, floor)
    }

    /// A retire that is refused, and changes nothing.
    fn stays(&mut self, floor: u32, question: u32) {
        let before = self.clone();
        assert_eq!(self.retire(floor), refused(question), "floor {floor}");
        assert_eq!(*self, before);
    }

    fn number_at(&self, at: usize, bytes: usize) -> u64 {
        self.store[at..at + bytes].iter().rev().fold(0, |n, byte| n << 8 | u64::from(*byte))
    }

    /// The used rows of a partition, or of the book.
    fn rows_of(&self, part: usize) -> Vec<(u64, u32)> {
        let used = self.number_at(3 + 2 * part, 2) as usize;
        let row_at = |row| (self.number_at(9 + 8 * row, 8), self.number_at(9 + 24 * self.rows + 4 * row, 4) as u32);
        (part * self.rows..part * self.rows + used).map(row_at).collect()
    }
}

fn booked(id: u64) -> Vec<(u64, u32)> {
    vec![(8 * id, 0), (8 * id + 1, 100), (8 * id + 2, 200), (8 * id + 3, 5), (8 * id + 4, 0)]
}

#[test]
fn book_and_log_rows_of_smaller_ids_go_and_data_rows_stay() {
    let mut lent = Lent::moved(20, &[3, 5, 9]);
    assert_eq!(lent.retire(9), Answer::Done);
    let minus = |amount: u32| 0u32.wrapping_sub(amount);
    assert_eq!(lent.rows_of(0), [(9 << 16, minus(15)), (DATA + 100, minus(15))]);
    assert_eq!(lent.rows_of(1), [((9 << 16) + 1, 15), (DATA + 200, 15)]);
    assert_eq!(lent.rows_of(BOOK), [booked(9), vec![(FLOOR_KEY, 9)]].concat());
    assert_eq!((lent.slots, lent.list), (EMPTY, NONE_LISTED));
    // the floor's row is overwritten, and the rest is as before
    assert_eq!(lent.retire(u32::MAX), Answer::Done);
    assert_eq!(lent.rows_of(0), [(DATA + 100, minus(15))]);
    assert_eq!(lent.rows_of(BOOK), [(FLOOR_KEY, u32::MAX)]);
    // freed rows are zero: the first row of the book has the floor, the second is free
    let second = 9 + 8 * (BOOK * lent.rows + 1);
    assert_eq!(lent.number_at(second, 8), 0);
}

#[test]
fn a_floor_without_a_smaller_booked_id() {
    let mut lent = Lent::moved(20, &[3, 5]);
    [0, 1, 3].iter().for_each(|floor| lent.stays(*floor, 29));
    assert_eq!(lent.retire(4), Answer::Done);
    [0, 3, 4, 5].iter().for_each(|floor| lent.stays(*floor, 29));
}

#[test]
fn what_is_not_logged_through_stays() {
    let mut lent = Lent::moved(20, &[5]);
    assert_eq!(lent.arrives(7, 3, 0), Answer::Done);
    for _turn in 0..3 {
        // with its agent in a slot, and without it
        for slots in [lent.slots, EMPTY] {
            let mut given = Lent { slots, ..lent.clone() };
            assert_eq!(reply(&PACK, &given.store, 3), Answer::NotYet);
            [4, 6].iter().for_each(|floor| given.stays(*floor, 28));
            given.stays(3, 29);
        }
        lent.turns(7, 1);
    }
    assert_ne!(reply(&PACK, &lent.store, 3), Answer::NotYet);
    lent.stays(4, 28);
    lent.turns(7, 1);
    assert_eq!((lent.slots, lent.retire(4)), (EMPTY, Answer::Done), "logged through and in no slot");
}

#[test]
fn what_is_listed_stays() {
    let mut lent = Lent::moved(20, &[3, 5]);
    assert_eq!(add(&PACK, &lent.store, &lent.slots, &mut lent.list, 3), Answer::Done);
    lent.stays(4, 28);
    assert_eq!(take(&PACK, &lent.store, &lent.slots, &mut lent.list), Answer::Taken { id: 3 });
    lent.stays(4, 28);
    assert_eq!(done(&PACK, &lent.store, &lent.slots, &mut lent.list, 3), Answer::Done);
    assert_eq!(add(&PACK, &lent.store, &lent.slots, &mut lent.list, 5), Answer::Done);
    lent.stays(6, 28);
    assert_eq!(lent.retire(5), Answer::Done, "5 itself isn't below the floor");
}

#[test]
fn earlier_questions_come_first() {
    let mut lent = Lent::moved(20, &[3]);
    lent.list[..4].copy_from_slice(&17u32.to_le_bytes());
    lent.stays(0, 25);
    lent.slots[0] = 1;
    lent.stays(0, 14);
    // a floor above the only booked id: 12, of this call and of each other
    lent.store[3 + 2 * BOOK] += 1;
    let (key, value) = (9 + 8 * (BOOK * lent.rows + 5), 9 + 24 * lent.rows + 4 * (BOOK * lent.rows + 5));
    lent.store[key..key + 8].copy_from_slice(&FLOOR_KEY.to_le_bytes());
    lent.store[value] = 4;
    lent.stays(0, 12);
    assert_eq!(lent.arrives(0, 9, 0), refused(12));
    // floor 3 is right, and so is floor 0
    for floor in [3, 0] {
        lent.store[value] = floor;
        lent.stays(0, 14);
    }
}

#[test]
fn an_id_below_the_floor_never_arrives_again() {
    let mut lent = Lent::moved(20, &[3, 5]);
    assert_eq!(lent.retire(5), Answer::Done);
    let before = lent.clone();
    for id in 1..5 {
        assert_eq!((lent.arrives(0, id, 0), lent.arrives(0, id, 9)), (refused(30), refused(30)), "30 comes before 17");
        assert_eq!(retry(&PACK, &lent.store, &mut lent.slots, 0, id), refused(20));
        assert_eq!(reply(&PACK, &lent.store, id), refused(20));
        assert_eq!(add(&PACK, &lent.store, &lent.slots, &mut lent.list, id), refused(20));
        assert_eq!(done(&PACK, &lent.store, &lent.slots, &mut lent.list, id), refused(27));
    }
    assert_eq!((lent.arrives(0, 0, 0), lent.arrives(8, 1, 0)), (refused(24), refused(15)));
    assert_eq!(lent.arrives(0, 5, 9), refused(17));
    assert_eq!(lent, before);
    assert_eq!(lent.arrives(0, 5, 0), Answer::Done, "the floor itself is not below the floor");
}

#[test]
fn rows_that_came_free_are_used_again() {
    let mut lent = Lent::moved(15, &[1, 2, 3]);
    for id in 4..200 {
        assert_eq!(lent.arrives(0, id, 0), refused(19));
        // the floor's row takes one of the fifteen, so that two requests have room from then on
        let floor = if id == 4 { 3 } else { id - 1 };
        assert_eq!(lent.retire(floor), Answer::Done);
        lent.moves(id);
    }
    assert_eq!((lent.rows_of(0).len(), lent.rows_of(BOOK).len()), (3, 11));
    assert_eq!(lent.rows_of(1).last(), Some(&(DATA + 200, 199 * 5)));
}

#[test]
fn a_book_of_five_rows_stays_shut() {
    let mut lent = Lent::moved(5, &[7]);
    assert_eq!(lent.retire(8), Answer::Done);
    assert_eq!(lent.rows_of(BOOK), [(FLOOR_KEY, 8)]);
    assert_eq!((lent.arrives(0, 8, 0), lent.arrives(0, 7, 0)), (refused(19), refused(30)));
}

/// Retire with floor 4 on buffers of so many bytes: the number returned, the answer and whether the store stayed.
fn retire_with(slots: usize, list: usize, answer: usize) -> (u32, Vec<u8>, bool) {
    let mut lent = Lent::moved(20, &[3]);
    let before = lent.clone();
    let listed: Vec<u8> = lent.list.iter().copied().chain([0xAA; 8]).take(list).collect();
    let mut answered = vec![0xAA; answer];
    // Safety: the pointers and lengths are those of slices that are apart from each other; `slots` is at most 384.
    let number = unsafe {
        sarthule_retire(
            PACK.as_ptr(),
            PACK.len(),
            lent.store.as_mut_ptr(),
            lent.store.len(),
            lent.slots.as_ptr(),
            slots,
            listed.as_ptr(),
            listed.len(),
            4,
            answered.as_mut_ptr(),
            answered.len(),
        )
    };
    (number, answered, lent == before)
}

#[test]
fn buffers_are_looked_at_in_sequence() {
    assert_eq!(retire_with(383, 131, 11), (100, vec![0xAA; 11], true));
    assert_eq!(retire_with(383, 131, 12), (101, vec![0xAA; 12], true));
    assert_eq!(retire_with(384, 131, 12), (102, vec![0xAA; 12], true));
    assert_eq!(retire_with(384, 140, 14), (0, [&[0; 12][..], &[0xAA; 2]].concat(), false));
}
