//! Seeded cases: each case depends on the seed and its own number only, so that a
//! longer file starts with the shorter one.

mod calls;
mod damage;
mod figures;
mod keepers;
mod large;
mod moves;
mod near_miss;
mod order;
mod packs;
mod retiring;
mod schedules;
mod turns;
mod workers;
mod worklists;
mod world;

use crate::cases::{write_all, Case};
use crate::random::Random;
use worklists::Aim;

pub use figures::branching;
pub use keepers::retiring_list;
pub use moves::move_list;
pub use near_miss::near_miss;
pub use packs::{encoded_pack, Bounds};
pub use schedules::any_list;
pub use workers::worked_list;
pub use world::World;

/// What a case is after. A number is the question that it is aimed at; some miss their
/// aim, because an earlier question says no or the pack has nothing to aim at.
#[derive(Clone, Copy, Debug, PartialEq, Eq)]
enum Family {
    /// A schedule on a right pack.
    Schedule,
    /// A schedule that questions 9, 22 or 23 refuse.
    BadSchedule(u8),
    /// A schedule whose pack is not right.
    BadPackSchedule,
    /// A pack check of a right pack.
    Check,
    Open,
    Create,
    /// A pack check or another call on a pack that is nearly right.
    NearMiss(u8),
    NearMissCall,
    /// Figures of a right pack, and of one or a number that 1 to 8 and 17 refuse.
    Figures,
    FiguresRefused,
    /// A call on what a run left.
    AfterRun,
    /// A call on rows and records that no run left, but that are right.
    Odd,
    /// A call on a state damaged in one place.
    Damaged(u8),
    DamagedTwice,
    /// A call that questions 15 to 20 or 24 refuse.
    Wrong(u8),
    /// A list of calls on an older store, which has id 0 in its book.
    Older,
    /// An arrival whose rows belong below, between or above those in the book, and a block
    /// whose rows so belong in its partition.
    NewId,
    Merging,
    /// A call on rows that do not rise, or have one key twice.
    NotRising,
    /// The call that puts a store in order, on a right one and on one that it refuses.
    PutInOrder,
    PutInOrderRefused,
    /// A list of calls with it.
    OrderList,
    /// A turn at an instruction outside a block, on any registers.
    OneInstruction,
    /// A block that reads a key: absent, here, or PUT by the block.
    Reading,
    /// A block with exactly enough room, one row too few, or on the log.
    ExactRoom,
    OneRowShort,
    Logged,
    /// A call on a worklist or beside one, the reading call, and a list of calls with a worklist.
    Worklist(Aim),
    WorklistCalls,
    /// A retire, a call on a store with a floor, and a list of calls of a host that retires.
    Retire(retiring::Aim),
    RetireCalls,
    /// Restart on any state.
    Restart,
    /// Bytes without sense.
    Noise,
    Large,
}

use Family::*;

/// The retires that are accepted, and those aimed at one of 28 to 30.
const RETIRED: Family = Retire(retiring::Aim::Accepted);
const fn retire_to(question: u8) -> Family {
    Retire(retiring::Aim::Refused(question))
}
const FLOOR: Family = Retire(retiring::Aim::Floor);

/// Taken in turn. What is likely to find a difference stands more than once.
const FAMILIES: [Family; 177] = [
    Schedule,
    NearMiss(1),
    Damaged(9),
    NotRising,
    Check,
    Reading,
    RETIRED,
    PutInOrder,
    Worklist(Aim::Accepted),
    Figures,
    Older,
    Wrong(24),
    retire_to(28),
    Schedule,
    NearMiss(2),
    Wrong(15),
    Worklist(Aim::Refused(25)),
    AfterRun,
    retire_to(30),
    Merging,
    FiguresRefused,
    OrderList,
    WorklistCalls,
    NearMiss(3),
    FLOOR,
    Worklist(Aim::Refused(27)),
    Worklist(Aim::Reply),
    Damaged(10),
    PutInOrderRefused,
    Open,
    Reading,
    RetireCalls,
    Schedule,
    NearMiss(4),
    WorklistCalls,
    Figures,
    Wrong(16),
    retire_to(29),
    AfterRun,
    NearMiss(5),
    Worklist(Aim::Refused(25)),
    Damaged(11),
    Worklist(Aim::Refused(27)),
    Retire(retiring::Aim::Damaged),
    Create,
    Schedule,
    NearMiss(6),
    Wrong(17),
    AfterRun,
    RETIRED,
    Worklist(Aim::Beside),
    NearMiss(7),
    Figures,
    Damaged(12),
    NotRising,
    retire_to(28),
    Odd,
    Reading,
    Worklist(Aim::Accepted),
    Schedule,
    NearMiss(8),
    retire_to(30),
    Wrong(18),
    FiguresRefused,
    PutInOrder,
    Older,
    Worklist(Aim::Refused(26)),
    FLOOR,
    Wrong(24),
    Schedule,
    BadSchedule(22),
    Damaged(13),
    NewId,
    RetireCalls,
    Merging,
    Worklist(Aim::Accepted),
    Figures,
    ExactRoom,
    BadSchedule(23),
    retire_to(29),
    Wrong(19),
    OrderList,
    Worklist(Aim::Refused(25)),
    Worklist(Aim::Refused(26)),
    OneRowShort,
    Retire(retiring::Aim::Damaged),
    PutInOrderRefused,
    Schedule,
    BadSchedule(9),
    Damaged(14),
    Figures,
    Worklist(Aim::Damaged),
    RETIRED,
    Logged,
    Reading,
    NearMiss(6),
    Wrong(20),
    PutInOrderRefused,
    retire_to(28),
    Worklist(Aim::Reply),
    AfterRun,
    FiguresRefused,
    Schedule,
    NearMissCall,
    retire_to(30),
    Damaged(11),
    NotRising,
    Worklist(Aim::Refused(27)),
    Worklist(Aim::Reply),
    Odd,
    FLOOR,
    BadPackSchedule,
    Figures,
    Damaged(14),
    NewId,
    Worklist(Aim::Accepted),
    RetireCalls,
    Merging,
    Create,
    Older,
    Wrong(24),
    Schedule,
    retire_to(29),
    Worklist(Aim::Beside),
    NearMiss(5),
    PutInOrder,
    WorklistCalls,
    DamagedTwice,
    RETIRED,
    OneRowShort,
    Figures,
    Reading,
    NearMiss(2),
    Worklist(Aim::Refused(26)),
    retire_to(28),
    Wrong(18),
    Wrong(24),
    Open,
    FiguresRefused,
    Schedule,
    retire_to(30),
    Noise,
    Worklist(Aim::Beside),
    OrderList,
    Damaged(11),
    NotRising,
    FLOOR,
    AfterRun,
    Schedule,
    WorklistCalls,
    Worklist(Aim::Accepted),
    Figures,
    RetireCalls,
    Large,
    AfterRun,
    Worklist(Aim::Refused(26)),
    Odd,
    NearMiss(5),
    RETIRED,
    Worklist(Aim::Refused(27)),
    PutInOrderRefused,
    Damaged(14),
    FiguresRefused,
    Schedule,
    retire_to(28),
    Restart,
    NearMiss(6),
    Worklist(Aim::Reply),
    ExactRoom,
    Reading,
    retire_to(30),
    OneInstruction,
    Figures,
    BadSchedule(22),
    OneInstruction,
    Worklist(Aim::Refused(25)),
    RETIRED,
];

/// How many cases of the same family come before, counted on from the seed: what a
/// family has of several sorts it takes in turn, so that a small file has them all.
fn lane(seed: u64, number: usize) -> usize {
    let place = number % FAMILIES.len();
    let is_same = |family: &&Family| **family == FAMILIES[place];
    let before = FAMILIES[..place].iter().filter(is_same).count();
    let in_a_round = FAMILIES.iter().filter(is_same).count();
    let rounds = number / FAMILIES.len();
    (seed as usize % 1_000) + rounds * in_a_round + before
}

/// Case `number` of a seed.
pub fn case(seed: u64, number: usize) -> Case {
    let mut random = Random::of_item(seed, number as u64);
    let random = &mut random;
    let lane = lane(seed, number);
    match FAMILIES[number % FAMILIES.len()] {
        Schedule => schedules::right(random),
        BadSchedule(question) => schedules::refused(random, question, lane),
        BadPackSchedule => schedules::bad_pack(random),
        Check => calls::check(random),
        Open => calls::open(random),
        Create => calls::create(random),
        NearMiss(question) => calls::near_miss_check(random, question, lane),
        NearMissCall => calls::near_miss_call(random),
        Figures => figures::right(random, lane),
        FiguresRefused => figures::refused(random, lane),
        AfterRun => calls::after_run(random),
        Odd => calls::odd(random),
        Damaged(question) => calls::damaged(random, question, lane),
        DamagedTwice => calls::damaged_twice(random),
        Wrong(question) => calls::wrong(random, question, lane),
        Older => calls::older(random, lane),
        NewId => order::new_id(random, lane),
        Merging => turns::merging(random),
        NotRising => order::not_rising(random, lane),
        PutInOrder => order::put_in_order(random, lane),
        PutInOrderRefused => order::put_in_order_refused(random, lane),
        OrderList => order::list(random, lane),
        OneInstruction => turns::one_instruction(random, lane),
        Reading => turns::reading(random, lane),
        ExactRoom => turns::at_block(random, turns::Room::Exact),
        OneRowShort => turns::at_block(random, turns::Room::OneShort),
        Logged => turns::at_block(random, turns::Room::Logged),
        Worklist(aim) => worklists::any(random, aim, lane),
        WorklistCalls => workers::list(random, lane),
        Retire(aim) => retiring::any(random, aim, lane),
        RetireCalls => keepers::list(random, lane),
        Restart => calls::restart(random),
        Noise => calls::noise(random),
        Large => large::any(random, lane),
    }
}

/// The first `count` cases of a seed.
pub fn cases(seed: u64, count: usize) -> Vec<Case> {
    (0..count).map(|number| case(seed, number)).collect()
}

/// The same as the bytes of a file.
pub fn file(seed: u64, count: usize) -> Vec<u8> {
    write_all(&cases(seed, count))
}
