//! The worklist (W-208), by the library: its calls, their refusals, what they write where, and the reply worked out from the log.

use sarthule::{
    add, arrival, crash, create, done, listed, reply, restart, retry, store_bytes, take, turn, word, Answer, List, Request, Slots,
    EMPTY, NONE_LISTED, TAKEN, WAITING,
};

/// Two workflows: one that adds r1 to the value at key r0 in partition 0 and replies it, and one without blocks, which replies r1.
const PACK: [u8; 40] = [
    2, 6, 0, 1, 0, 0x60, 0x84, 0x24, 0x90, 0x74, 0xB0, 0xB1, //
    0, 0, 0, 0, 0, 0, 0, 0, 1, 0, 0, 0, 4, 0, 0, 0, 0, 0, 0, 0, 0, 0, 0, 0, 0, 0, 0, 0,
];
const COUNTS: u32 = 0;
const REPLIES: u32 = 1;

extern "C" {
    fn sarthule_add(
        pack: *const u8,
        pack_len: usize,
        store: *const u8,
        store_len: usize,
        slots: *const u8,
        slots_len: usize,
        list: *mut u8,
        list_len: usize,
        id: u32,
        answer: *mut u8,
        answer_len: usize,
    ) -> u32;
    fn sarthule_restart(
        slots: *mut u8,
        slots_len: usize,
        list: *mut u8,
        list_len: usize,
        answer: *mut u8,
        answer_len: usize,
    ) -> u32;
    fn sarthule_reply(
        pack: *const u8,
        pack_len: usize,
        store: *const u8,
        store_len: usize,
        id: u32,
        answer: *mut u8,
        answer_len: usize,
    ) -> u32;
}

fn refused(question: u32) -> Answer {
    Answer::Refused { question, workflow: 0, instruction: 0 }
}

/// What the calls are lent.
struct Lent {
    store: Vec<u8>,
    slots: Slots,
    list: List,
}

impl Lent {
    /// A fresh store with these requests booked, and no agent.
    fn booked(requests: &[(u32, u32)]) -> Self {
        let mut lent = Self { store: vec![0; store_bytes(1, 100)], slots: EMPTY, list: NONE_LISTED };
        assert_eq!(create(&mut lent.store, 1, 100), Answer::Done);
        for &(id, workflow) in requests {
            let request = Request { id, workflow, arguments: [9, 70, 0, 0] };
            assert_eq!(arrival(&PACK, &mut lent.store, &mut lent.slots, 0, request), Answer::Done);
            assert_eq!(crash(&PACK, &lent.store, &mut lent.slots, 0), Answer::Done);
        }
        lent
    }

    fn add(&mut self, id: u32) -> Answer {
        add(&PACK, &self.store, &self.slots, &mut self.list, id)
    }

    fn take(&mut self) -> Answer {
        take(&PACK, &self.store, &self.slots, &mut self.list)
    }

    fn done(&mut self, id: u32) -> Answer {
        done(&PACK, &self.store, &self.slots, &mut self.list, id)
    }

    fn reply(&self, id: u32) -> Answer {
        reply(&PACK, &self.store, id)
    }

    /// An agent of the request in slot 5, and its turns until the reply.
    fn finish(&mut self, id: u32) -> Answer {
        assert_eq!(retry(&PACK, &self.store, &mut self.slots, 5, id), Answer::Done);
        loop {
            match turn(&PACK, &mut self.store, &mut self.slots, 5) {
                Answer::Moved => {}
                answer => return answer,
            }
        }
    }

    /// The list has these entries and no others, whatever stands behind them.
    fn lists(&self, entries: &[(u32, u32)]) {
        assert_eq!((word(&self.list, 0) as usize, listed(&self.list)), (entries.len(), entries.to_vec()));
    }
}

#[test]
fn a_worker_finishes_what_is_listed() {
    let mut lent = Lent::booked(&[(7, COUNTS), (3, COUNTS)]);
    assert_eq!(lent.take(), refused(27), "none waits");
    assert_eq!((lent.add(7), lent.add(3), lent.add(7)), (Answer::Done, Answer::Done, Answer::Done));
    lent.lists(&[(7, WAITING), (3, WAITING)]);
    assert_eq!((lent.take(), lent.add(7)), (Answer::Taken { id: 7 }, Answer::Done));
    lent.lists(&[(7, TAKEN), (3, WAITING)]);
    assert_eq!((lent.done(7), lent.reply(7)), (refused(27), Answer::NotYet), "it isn't logged through");
    let replied = lent.finish(7);
    assert_eq!((replied, lent.reply(7)), (Answer::Reply { id: 7, value: 70 }, replied));
    assert_eq!((lent.done(3), lent.done(8)), (refused(27), refused(27)), "waiting, and not listed");
    assert_eq!(lent.done(7), Answer::Done);
    lent.lists(&[(3, WAITING)]);
    assert_eq!((lent.done(7), lent.reply(7)), (refused(27), replied), "it is listed no more, and its reply is still there");
    // logged through while it waits is not taken
    assert_eq!((lent.finish(3), lent.done(3)), (Answer::Reply { id: 3, value: 140 }, refused(27)));
    assert_eq!((lent.take(), lent.done(3), lent.take()), (Answer::Taken { id: 3 }, Answer::Done, refused(27)));
    lent.lists(&[]);
}

#[test]
fn a_request_without_blocks_is_logged_through_from_its_booking() {
    let mut lent = Lent::booked(&[(7, REPLIES)]);
    assert_eq!(lent.reply(7), Answer::Reply { id: 7, value: 70 });
    assert_eq!((lent.add(7), lent.take(), lent.done(7)), (Answer::Done, Answer::Taken { id: 7 }, Answer::Done));
}

#[test]
fn a_restart_has_all_waiting() {
    let mut lent = Lent::booked(&[(7, COUNTS), (3, COUNTS)]);
    assert_eq!((lent.add(7), lent.add(3), lent.take()), (Answer::Done, Answer::Done, Answer::Taken { id: 7 }));
    assert_eq!(retry(&PACK, &lent.store, &mut lent.slots, 2, 7), Answer::Done);
    assert_eq!(restart(&mut lent.slots, &mut lent.list), Answer::Done);
    assert_eq!(lent.slots, EMPTY);
    lent.lists(&[(7, WAITING), (3, WAITING)]);
    assert_eq!(lent.take(), Answer::Taken { id: 7 }, "it has kept its place");
}

/// A list of these words, as its bytes.
fn list_of(words: &[u32]) -> List {
    let mut list = NONE_LISTED;
    for (place, word) in words.iter().enumerate() {
        list[4 * place..4 * place + 4].copy_from_slice(&word.to_le_bytes());
    }
    list
}

#[test]
fn a_wrong_list_is_refused_and_stays() {
    for words in [&[17][..], &[u32::MAX], &[2, 7, TAKEN, 7, WAITING], &[1, 7, 2], &[1, 7, 256], &[1, 7, 1 << 24]] {
        let wrong = list_of(words);
        let mut lent = Lent { list: wrong, ..Lent::booked(&[(7, COUNTS)]) };
        assert_eq!((lent.add(7), lent.take(), lent.done(7)), (refused(25), refused(25), refused(25)), "{words:?}");
        lent.slots[0] = 1;
        assert_eq!((lent.add(7), lent.take(), lent.done(7)), (refused(14), refused(14), refused(14)), "14 comes first");
        assert_eq!((restart(&mut lent.slots, &mut lent.list), lent.slots), (Answer::Done, EMPTY));
        assert_eq!(lent.list, wrong, "{words:?}");
    }
}

#[test]
fn sixteen_are_listed_at_most() {
    let requests: Vec<(u32, u32)> = (1..=17).map(|id| (id, COUNTS)).collect();
    let mut lent = Lent::booked(&requests);
    assert_eq!(lent.add(99), refused(20), "not booked");
    for id in (1..=16).rev() {
        assert_eq!(lent.add(id), Answer::Done);
    }
    assert_eq!((lent.add(17), lent.add(99), lent.add(1)), (refused(26), refused(26), Answer::Done), "26 comes before 20");
    let entries: Vec<(u32, u32)> = (1..=16).rev().map(|id| (id, WAITING)).collect();
    lent.lists(&entries);
}

#[test]
fn a_listed_id_that_is_not_booked() {
    let mut lent = Lent { list: list_of(&[1, 8, TAKEN]), ..Lent::booked(&[(7, COUNTS)]) };
    assert_eq!((lent.add(8), lent.done(8), lent.reply(8)), (refused(20), refused(27), refused(20)));
}

#[test]
fn done_leaves_what_stands_behind_the_last_entry() {
    let mut lent = Lent { list: list_of(&[3, 5, TAKEN, 7, TAKEN, 6, WAITING, 8, 9]), ..Lent::booked(&[(7, REPLIES)]) };
    assert_eq!(lent.done(7), Answer::Done);
    assert_eq!(lent.list, list_of(&[2, 5, TAKEN, 6, WAITING, 6, WAITING, 8, 9]));
}

/// Add of id 7 on buffers of so many bytes: the number returned, the answer and the list, which hold 0xAA behind their beginning.
fn add_with(lent: &Lent, slots: usize, list: usize, answer: usize) -> (u32, Vec<u8>, Vec<u8>) {
    let mut listed: Vec<u8> = lent.list.iter().copied().chain([0xAA; 8]).take(list).collect();
    let mut answered = vec![0xAA; answer];
    // Safety: the pointers and lengths are those of slices that are apart from each other.
    let number = unsafe {
        sarthule_add(
            PACK.as_ptr(),
            PACK.len(),
            lent.store.as_ptr(),
            lent.store.len(),
            lent.slots.as_ptr(),
            slots,
            listed.as_mut_ptr(),
            listed.len(),
            7,
            answered.as_mut_ptr(),
            answered.len(),
        )
    };
    (number, answered, listed)
}

#[test]
fn buffers_are_looked_at_in_sequence() {
    let lent = Lent::booked(&[(7, COUNTS)]);
    assert_eq!(add_with(&lent, 383, 131, 11), (100, vec![0xAA; 11], vec![0; 131]));
    assert_eq!(add_with(&lent, 383, 131, 12), (101, vec![0xAA; 12], vec![0; 131]));
    assert_eq!(add_with(&lent, 384, 131, 12), (102, vec![0xAA; 12], vec![0; 131]));
    let (number, answer, list) = add_with(&lent, 384, 140, 14);
    assert_eq!((number, answer), (0, [&[0; 12][..], &[0xAA; 2]].concat()));
    assert_eq!(list, [&list_of(&[1, 7])[..], &[0xAA; 8]].concat(), "what is behind 132 bytes stays");
}

#[test]
fn a_restart_looks_at_its_buffers_too() {
    let (mut slots, mut list, mut answer) = ([1; 384], list_of(&[1, 7, TAKEN]), [0xAA; 12]);
    let mut with = |slots_len, list_len, answer_len| {
        // Safety: as above; each length is at most that of its array.
        let number = unsafe {
            sarthule_restart(slots.as_mut_ptr(), slots_len, list.as_mut_ptr(), list_len, answer.as_mut_ptr(), answer_len)
        };
        (number, slots, list, answer)
    };
    let before = ([1; 384], list_of(&[1, 7, TAKEN]), [0xAA; 12]);
    for (number, lengths) in [(100, (383, 131, 11)), (101, (383, 131, 12)), (102, (384, 131, 12))] {
        assert_eq!(with(lengths.0, lengths.1, lengths.2), (number, before.0, before.1, before.2));
    }
    assert_eq!(with(384, 132, 12), (0, EMPTY, list_of(&[1, 7]), [0; 12]));
}

#[test]
fn the_words_of_a_reply() {
    let lent = Lent::booked(&[(7, REPLIES), (3, COUNTS)]);
    let told = |id: u32, bytes: usize| {
        let mut answer = vec![0xAA; bytes];
        let store = &lent.store;
        // Safety: as above.
        let number = unsafe {
            sarthule_reply(PACK.as_ptr(), PACK.len(), store.as_ptr(), store.len(), id, answer.as_mut_ptr(), answer.len())
        };
        (number, answer)
    };
    let words = |words: [u32; 3]| words.iter().flat_map(|word| word.to_le_bytes()).collect::<Vec<u8>>();
    assert_eq!(told(7, 12), (2, words([7, 70, 0])));
    assert_eq!(told(3, 12), (5, words([0, 0, 0])));
    assert_eq!(told(8, 12), (3, words([20, 0, 0])));
    assert_eq!(told(7, 11), (100, vec![0xAA; 11]));
}
