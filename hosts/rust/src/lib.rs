//! The workflow runtime for Rust: safe functions over the C interface of `include/sarthule.h`, which says what each does, how the
//! slots and the worklist are laid out and what the numbers of refusals ask.

/// Eight agent records.
pub type Slots = [u8; 384];

/// Eight empty slots.
pub const EMPTY: Slots = [0; 384];

/// The worklist: the number of entries, and for each an id and a mark.
pub type List = [u8; 132];

/// An empty worklist.
pub const NONE_LISTED: List = [0; 132];

/// The most ids that are listed.
pub const LISTED: usize = 16;

/// The marks of a listed id.
pub const WAITING: u32 = 0;
pub const TAKEN: u32 = 1;

/// The stored key of the floor's row, the last one of the book if it is there.
pub const FLOOR_KEY: u64 = 1 << 40;

/// What a call answers.
#[derive(Clone, Copy, Debug, PartialEq, Eq)]
pub enum Answer {
    Done,
    Moved,
    Reply { id: u32, value: u32 },
    Refused { question: u32, workflow: u32, instruction: u32 },
    Taken { id: u32 },
    NotYet,
}

/// Where the parts of an opened workflow stand in the pack: offset and length.
#[derive(Clone, Copy, Debug, PartialEq, Eq)]
pub struct Parts {
    pub operations: (usize, usize),
    pub operands: (usize, usize),
}

/// How much a workflow will take: the most turns over all routes, and for each partition the most rows over all routes.
#[derive(Clone, Copy, Debug, PartialEq, Eq)]
pub struct Figures {
    pub turns: u32,
    pub rows: [u32; 8],
}

/// A request: id, workflow and arguments.
#[derive(Clone, Copy, Debug, PartialEq, Eq)]
pub struct Request {
    pub id: u32,
    pub workflow: u32,
    pub arguments: [u32; 4],
}

mod c {
    extern "C" {
        pub fn sarthule_check(pack: *const u8, pack_len: usize, answer: *mut u8, answer_len: usize) -> u32;
        pub fn sarthule_open(pack: *const u8, pack_len: usize, workflow: u32, answer: *mut u8, answer_len: usize) -> u32;
        pub fn sarthule_figures(pack: *const u8, pack_len: usize, workflow: u32, answer: *mut u8, answer_len: usize) -> u32;
        pub fn sarthule_create(
            store: *mut u8,
            store_len: usize,
            partitions: usize,
            rows: usize,
            answer: *mut u8,
            answer_len: usize,
        ) -> u32;
        pub fn sarthule_order(store: *mut u8, store_len: usize, answer: *mut u8, answer_len: usize) -> u32;
        pub fn sarthule_arrival(
            pack: *const u8,
            pack_len: usize,
            store: *mut u8,
            store_len: usize,
            slots: *mut u8,
            slots_len: usize,
            slot: usize,
            id: u32,
            workflow: u32,
            argument0: u32,
            argument1: u32,
            argument2: u32,
            argument3: u32,
            answer: *mut u8,
            answer_len: usize,
        ) -> u32;
        pub fn sarthule_retry(
            pack: *const u8,
            pack_len: usize,
            store: *const u8,
            store_len: usize,
            slots: *mut u8,
            slots_len: usize,
            slot: usize,
            id: u32,
            answer: *mut u8,
            answer_len: usize,
        ) -> u32;
        pub fn sarthule_turn(
            pack: *const u8,
            pack_len: usize,
            store: *mut u8,
            store_len: usize,
            slots: *mut u8,
            slots_len: usize,
            slot: usize,
            answer: *mut u8,
            answer_len: usize,
        ) -> u32;
        pub fn sarthule_crash(
            pack: *const u8,
            pack_len: usize,
            store: *const u8,
            store_len: usize,
            slots: *mut u8,
            slots_len: usize,
            slot: usize,
            answer: *mut u8,
            answer_len: usize,
        ) -> u32;
        pub fn sarthule_restart(
            slots: *mut u8,
            slots_len: usize,
            list: *mut u8,
            list_len: usize,
            answer: *mut u8,
            answer_len: usize,
        ) -> u32;
        pub fn sarthule_add(
            pack: *const u8,
            pack_len: usize,
            store: *const u8,
            store_len: usize,
            slots: *const u8,
            slots_len: usize,
            list: *mut u8,
            list_len: usize,
            id: u32,
            answer: *mut u8,
            answer_len: usize,
        ) -> u32;
        pub fn sarthule_take(
            pack: *const u8,
            pack_len: usize,
            store: *const u8,
            store_len: usize,
            slots: *const u8,
            slots_len: usize,
            list: *mut u8,
            list_len: usize,
            answer: *mut u8,
            answer_len: usize,
        ) -> u32;
        pub fn sarthule_done(
            pack: *const u8,
            pack_len: usize,
            store: *const u8,
            store_len: usize,
            slots: *const u8,
            slots_len: usize,
            list: *mut u8,
            list_len: usize,
            id: u32,
            answer: *mut u8,
            answer_len: usize,
        ) -> u32;
        pub fn sarthule_retire(
            pack: *const u8,
            pack_len: usize,
            store: *mut u8,
            store_len: usize,
            slots: *const u8,
            slots_len: usize,
            list: *const u8,
            list_len: usize,
            floor: u32,
            answer: *mut u8,
            answer_len: usize,
        ) -> u32;
        pub fn sarthule_reply(
            pack: *const u8,
            pack_len: usize,
            store: *const u8,
            store_len: usize,
            id: u32,
            answer: *mut u8,
            answer_len: usize,
        ) -> u32;
    }
}

/// The question of a refusal, by its number, in the order in which they are put; an empty text for a number that no call here puts.
pub fn question(number: u32) -> &'static str {
    match number {
        1 => "Is there a count, 1 to 16?",
        2 => "Are all sizes there, each 1 to 256, sum at most 2,048?",
        3 => "Is the length 1 + 2m + 5T?",
        4 => "Is the operation 0 to B and bit 3 clear?",
        5 => "Are w (a jump's target included), and d where fixed, in range?",
        6 => "Does it stand, and its jump land, on the right side?",
        7 => "Is it at most the 16th PUT of its block?",
        8 => "Is the last instruction RETURN?",
        9 => "Are there three bytes, P 1 to 8, C 5 to 256?",
        10 => "Is the store's length right?",
        11 => {
            "Is each used count at most C, each used key of a form of its partition and unlike the others there, \
             each unused row zero, and are the used keys rising?"
        }
        12 => "Has each booked id all five rows, and is none below the floor?",
        13 => "Is each booked workflow below m, each BEGIN's partition below P?",
        14 => "Is each slot empty or sound?",
        25 => "Has the list at most 16 ids, none twice, each waiting or taken (add, take, done, retire)?",
        26 => "If the id isn't listed, are fewer than 16 listed (add)?",
        27 => "Is an id waiting (take), or the id taken and logged through (done)?",
        28 => "Is each smaller booked id logged through, in no slot and not on the worklist (retire)?",
        29 => "Is a smaller id booked (retire)?",
        15 => "Is the slot 0 to 7?",
        16 => "Is it empty (arrival, retry) or in use (turn, crash)?",
        24 => "Is the id other than 0 (arrival)?",
        30 => "Is the id not below the floor (arrival)?",
        17 => "Is the workflow below m (arrival, opening, figures)?",
        18 => "If the id is known, are workflow and arguments those booked (arrival)?",
        19 => "If it is new, are five book rows free (arrival)?",
        20 => "Is the id booked (retry, add, reply)?",
        21 => "Has a block that isn't logged enough free rows: one, plus one per different new key it PUTs (turn)?",
        _ => "",
    }
}

/// The i-th word of 4 bytes.
pub fn word(bytes: &[u8], i: usize) -> u32 {
    u32::from_le_bytes([bytes[4 * i], bytes[4 * i + 1], bytes[4 * i + 2], bytes[4 * i + 3]])
}

/// The bytes of a store of so many partitions and rows.
pub const fn store_bytes(partitions: usize, rows: usize) -> usize {
    3 + 2 * (partitions + 1) + 12 * rows * (partitions + 1)
}

fn answer(number: u32, words: &[u8]) -> Answer {
    match number {
        0 => Answer::Done,
        1 => Answer::Moved,
        2 => Answer::Reply { id: word(words, 0), value: word(words, 1) },
        3 => Answer::Refused { question: word(words, 0), workflow: word(words, 1), instruction: word(words, 2) },
        4 => Answer::Taken { id: word(words, 0) },
        5 => Answer::NotYet,
        // The buffers here have the sizes that the library asks for.
        _ => unreachable!("the library refused a buffer"),
    }
}

// Safety, for every call below: the pointers and lengths are those of slices, which are apart from each other because the mutable
// ones are borrowed for the call alone.

pub fn check(pack: &[u8]) -> Answer {
    let mut a = [0; 12];
    answer(unsafe { c::sarthule_check(pack.as_ptr(), pack.len(), a.as_mut_ptr(), a.len()) }, &a)
}

/// The parts are all 0 where the answer is a refusal.
pub fn open(pack: &[u8], workflow: u32) -> (Answer, Parts) {
    let mut a = [0; 28];
    let n = unsafe { c::sarthule_open(pack.as_ptr(), pack.len(), workflow, a.as_mut_ptr(), a.len()) };
    let at = |i| word(&a, i) as usize;
    (answer(n, &a), Parts { operations: (at(3), at(4)), operands: (at(5), at(6)) })
}

/// The figures are all 0 where the answer is a refusal.
pub fn figures(pack: &[u8], workflow: u32) -> (Answer, Figures) {
    let mut a = [0; 48];
    let n = unsafe { c::sarthule_figures(pack.as_ptr(), pack.len(), workflow, a.as_mut_ptr(), a.len()) };
    let rows = std::array::from_fn(|partition| word(&a, 4 + partition));
    (answer(n, &a), Figures { turns: word(&a, 3), rows })
}

pub fn create(store: &mut [u8], partitions: usize, rows: usize) -> Answer {
    let mut a = [0; 12];
    let n = unsafe {
        c::sarthule_create(store.as_mut_ptr(), store.len(), partitions, rows, a.as_mut_ptr(), a.len())
    };
    answer(n, &a)
}

/// Puts a store of an earlier library in order; one that is in order keeps its bytes.
pub fn order(store: &mut [u8]) -> Answer {
    let mut a = [0; 12];
    answer(unsafe { c::sarthule_order(store.as_mut_ptr(), store.len(), a.as_mut_ptr(), a.len()) }, &a)
}

pub fn arrival(pack: &[u8], store: &mut [u8], slots: &mut Slots, slot: usize, request: Request) -> Answer {
    let mut a = [0; 12];
    let [a0, a1, a2, a3] = request.arguments;
    let n = unsafe {
        c::sarthule_arrival(
            pack.as_ptr(),
            pack.len(),
            store.as_mut_ptr(),
            store.len(),
            slots.as_mut_ptr(),
            slots.len(),
            slot,
            request.id,
            request.workflow,
            a0,
            a1,
            a2,
            a3,
            a.as_mut_ptr(),
            a.len(),
        )
    };
    answer(n, &a)
}

pub fn retry(pack: &[u8], store: &[u8], slots: &mut Slots, slot: usize, id: u32) -> Answer {
    let mut a = [0; 12];
    let n = unsafe {
        c::sarthule_retry(
            pack.as_ptr(),
            pack.len(),
            store.as_ptr(),
            store.len(),
            slots.as_mut_ptr(),
            slots.len(),
            slot,
            id,
            a.as_mut_ptr(),
            a.len(),
        )
    };
    answer(n, &a)
}

pub fn turn(pack: &[u8], store: &mut [u8], slots: &mut Slots, slot: usize) -> Answer {
    let mut a = [0; 12];
    let n = unsafe {
        c::sarthule_turn(
            pack.as_ptr(),
            pack.len(),
            store.as_mut_ptr(),
            store.len(),
            slots.as_mut_ptr(),
            slots.len(),
            slot,
            a.as_mut_ptr(),
            a.len(),
        )
    };
    answer(n, &a)
}

pub fn crash(pack: &[u8], store: &[u8], slots: &mut Slots, slot: usize) -> Answer {
    let mut a = [0; 12];
    let n = unsafe {
        c::sarthule_crash(
            pack.as_ptr(),
            pack.len(),
            store.as_ptr(),
            store.len(),
            slots.as_mut_ptr(),
            slots.len(),
            slot,
            a.as_mut_ptr(),
            a.len(),
        )
    };
    answer(n, &a)
}

/// Empties all slots, and has all ids of a right list waiting.
pub fn restart(slots: &mut Slots, list: &mut List) -> Answer {
    let mut a = [0; 12];
    let n = unsafe {
        c::sarthule_restart(
            slots.as_mut_ptr(),
            slots.len(),
            list.as_mut_ptr(),
            list.len(),
            a.as_mut_ptr(),
            a.len(),
        )
    };
    answer(n, &a)
}

/// Puts a booked id at the end of the list, waiting; one that is listed changes nothing.
pub fn add(pack: &[u8], store: &[u8], slots: &Slots, list: &mut List, id: u32) -> Answer {
    let mut a = [0; 12];
    let n = unsafe {
        c::sarthule_add(
            pack.as_ptr(),
            pack.len(),
            store.as_ptr(),
            store.len(),
            slots.as_ptr(),
            slots.len(),
            list.as_mut_ptr(),
            list.len(),
            id,
            a.as_mut_ptr(),
            a.len(),
        )
    };
    answer(n, &a)
}

/// Gives the first id that waits, and marks it as taken.
pub fn take(pack: &[u8], store: &[u8], slots: &Slots, list: &mut List) -> Answer {
    let mut a = [0; 12];
    let n = unsafe {
        c::sarthule_take(
            pack.as_ptr(),
            pack.len(),
            store.as_ptr(),
            store.len(),
            slots.as_ptr(),
            slots.len(),
            list.as_mut_ptr(),
            list.len(),
            a.as_mut_ptr(),
            a.len(),
        )
    };
    answer(n, &a)
}

/// Removes a taken id whose log leads through to RETURN.
pub fn done(pack: &[u8], store: &[u8], slots: &Slots, list: &mut List, id: u32) -> Answer {
    let mut a = [0; 12];
    let n = unsafe {
        c::sarthule_done(
            pack.as_ptr(),
            pack.len(),
            store.as_ptr(),
            store.len(),
            slots.as_ptr(),
            slots.len(),
            list.as_mut_ptr(),
            list.len(),
            id,
            a.as_mut_ptr(),
            a.len(),
        )
    };
    answer(n, &a)
}

/// Removes the book and log rows of every id below the floor, and keeps the floor in the store.
pub fn retire(pack: &[u8], store: &mut [u8], slots: &Slots, list: &List, floor: u32) -> Answer {
    let mut a = [0; 12];
    let n = unsafe {
        c::sarthule_retire(
            pack.as_ptr(),
            pack.len(),
            store.as_mut_ptr(),
            store.len(),
            slots.as_ptr(),
            slots.len(),
            list.as_ptr(),
            list.len(),
            floor,
            a.as_mut_ptr(),
            a.len(),
        )
    };
    answer(n, &a)
}

/// The reply of a booked id worked out from the log, or that it is not logged through yet.
pub fn reply(pack: &[u8], store: &[u8], id: u32) -> Answer {
    let mut a = [0; 12];
    let n = unsafe {
        c::sarthule_reply(pack.as_ptr(), pack.len(), store.as_ptr(), store.len(), id, a.as_mut_ptr(), a.len())
    };
    answer(n, &a)
}

/// The ids of a list and their marks, in order of entry; of one with more than 16 ids those that stand there.
pub fn listed(list: &List) -> Vec<(u32, u32)> {
    let number = (word(list, 0) as usize).min(LISTED);
    (0..number).map(|place| (word(list, 1 + 2 * place), word(list, 2 + 2 * place))).collect()
}
