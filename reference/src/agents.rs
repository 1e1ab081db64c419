//! The eight slots, and what questions 13 and 14 ask of book, pack and slots.

use crate::operations::Registers;
use crate::pack::{Operation, Pack};
use crate::store::Store;

pub const SLOTS: usize = 8;

/// In use, position and step are held whole, so that a number given for them is never cut:
/// a record with in use 2 is neither empty nor sound.
#[derive(Clone, Copy, Debug, Default, PartialEq, Eq)]
pub struct Agent {
    /// 1, or 0 for an empty slot.
    pub in_use: u32,
    pub id: u32,
    pub position: u32,
    pub step: u32,
    pub registers: Registers,
}

pub type Slots = [Agent; SLOTS];

/// Eight empty slots.
pub const ALL_EMPTY: Slots = [Agent::EMPTY; SLOTS];

impl Agent {
    pub const EMPTY: Self = Self {
        in_use: 0,
        id: 0,
        position: 0,
        step: 0,
        registers: [0; 8],
    };

    /// A started agent: the arguments in registers 0 to 3, all else zero.
    pub fn started(id: u32, arguments: [u32; 4]) -> Self {
        let mut registers = [0; 8];
        registers[..4].copy_from_slice(&arguments);
        Self {
            in_use: 1,
            id,
            registers,
            ..Self::EMPTY
        }
    }

    pub fn is_in_use(&self) -> bool {
        self.in_use == 1
    }

    pub fn is_empty(&self) -> bool {
        *self == Self::EMPTY
    }

    /// Its id is booked, its position in its workflow and outside a block, its step
    /// at most its position. A record that is not in use is never sound.
    pub fn is_sound<B: AsRef<[u8]>>(&self, pack: &Pack, store: &Store<B>) -> bool {
        let request = store.request(self.id);
        let workflow = request.and_then(|request| pack.workflow(request.workflow));
        let Some(workflow) = workflow else {
            return false;
        };
        let position = self.position as usize;
        self.is_in_use()
            && position < workflow.size()
            && !workflow.is_inside(position)
            && self.step <= self.position
    }
}

/// Question 13: each booked workflow below m, each BEGIN's partition below P.
pub fn pack_fits<B: AsRef<[u8]>>(pack: &Pack, store: &Store<B>) -> bool {
    let mut booked = store.booked_workflows();
    let partitions = store.shape().partitions as u32;
    booked.all(|workflow| pack.workflow(workflow).is_some())
        && pack
            .instructions()
            .filter(|instruction| instruction.operation == Operation::Begin)
            .all(|begin| begin.w < partitions)
}

/// Question 14: each of the eight slots, whichever the call names.
pub fn slots_are_right<B: AsRef<[u8]>>(slots: &Slots, pack: &Pack, store: &Store<B>) -> bool {
    slots
        .iter()
        .all(|agent| agent.is_empty() || agent.is_sound(pack, store))
}
