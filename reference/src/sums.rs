//! What stock control adds up while moves are under way (W-207): all data values, and the
//! amounts booked for requests whose step 0 is logged and step 1 isn't.
//!
//! Only the rows that stand in the bytes are read: no slot, no pack, and not how they came there. A
//! request that is retired (W-209) has both steps logged until then: it is not under way, and what it
//! moved stays in the data values.

use crate::pack::Pack;
use crate::store::{Key, Store};

/// MOVE of document 01's whole case: its operation bytes with their words.
pub const MOVE: [(u8, u32); 12] = [
    (0x14, 0),
    (0x60, 0),
    (0x85, 4),
    (0x35, 2),
    (0x94, 5),
    (0x75, 0),
    (0x60, 1),
    (0x85, 1),
    (0x25, 2),
    (0x91, 5),
    (0x75, 0),
    (0xB0, 0),
];

/// The argument of MOVE that is its amount.
const AMOUNT: usize = 2;
/// The step whose block takes the amount from a data value, and the one that adds it to another.
const TAKES: u16 = 0;
const ADDS: u16 = 1;

/// What both sums together are divisible by.
pub const DIVISOR: u64 = 1 << 32;

/// Whether MOVE is the only workflow of a pack, byte for byte.
pub fn is_only_move(pack: &Pack) -> bool {
    let [only] = pack.workflows() else {
        return false;
    };
    let operations = MOVE.iter().map(|(byte, _)| *byte);
    let operands = MOVE.iter().flat_map(|(_, word)| word.to_le_bytes());
    only.operations.iter().copied().eq(operations) && only.operands.iter().copied().eq(operands)
}

/// Sums of 32-bit values as whole numbers: at most 8 partitions of 256 rows, and fewer requests
/// than a book has rows, so that neither can wrap.
#[derive(Clone, Copy, Debug, PartialEq, Eq)]
pub struct Sums {
    pub data: u64,
    pub under_way: u64,
}

impl Sums {
    pub fn of<B: AsRef<[u8]>>(store: &Store<B>) -> Self {
        let amounts = under_way(store)
            .into_iter()
            .map(|(_, amount)| u64::from(amount));
        Self {
            data: data(store),
            under_way: amounts.sum(),
        }
    }

    pub fn together(&self) -> u64 {
        self.data + self.under_way
    }

    /// Nothing is lost on the way.
    pub fn is_divisible(&self) -> bool {
        self.together() % DIVISOR == 0
    }
}

/// The sum of all data values of partitions 0 to P - 1; log rows and the book are none of it.
fn data<B: AsRef<[u8]>>(store: &Store<B>) -> u64 {
    let rows = (0..store.shape().partitions).flat_map(|partition| store.rows(partition));
    rows.filter(|(key, _)| matches!(Key::of_stored(*key), Some(Key::Data(_))))
        .map(|(_, value)| u64::from(value))
        .sum()
}

/// The ids under way and the amounts booked for them, in the order of the book.
pub fn under_way<B: AsRef<[u8]>>(store: &Store<B>) -> Vec<(u32, u32)> {
    let ids = store.booked_ids().into_iter();
    ids.filter(|id| is_logged(store, *id, TAKES) && !is_logged(store, *id, ADDS))
        .filter_map(|id| store.request(id))
        .map(|request| (request.id, request.arguments[AMOUNT]))
        .collect()
}

/// Whether a step's log row stands in any partition below P.
pub fn is_logged<B: AsRef<[u8]>>(store: &Store<B>, id: u32, step: u16) -> bool {
    let key = Key::Log { id, step }.stored();
    (0..store.shape().partitions).any(|partition| store.find(partition, key).is_some())
}
