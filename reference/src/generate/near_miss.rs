//! Packs that are nearly right: each is aimed at one of the questions 1 to 8.

use super::packs::{right_pack, right_workflow, Bounds, Rows};
use crate::pack;
use crate::random::Random;

/// The bytes of a pack aimed at a question from 1 to 8; `lane` picks the sort of miss.
pub fn near_miss(random: &mut Random, question: u8, lane: usize) -> Vec<u8> {
    match question {
        1 => wrong_count(random, lane),
        2 => wrong_sizes(random, lane),
        3 => wrong_length(random, lane),
        _ => {
            let workflow = match question {
                4 => no_operation(random, lane),
                5 => from_template(random, OUT_OF_RANGE[lane % OUT_OF_RANGE.len()]),
                6 => from_template(random, WRONG_SIDE[lane % WRONG_SIDE.len()]),
                7 => too_many_puts(random, lane),
                _ => no_return(random, lane),
            };
            among_others(random, workflow)
        }
    }
}

/// A pack aimed at any of the questions.
pub fn any_near_miss(random: &mut Random) -> Vec<u8> {
    let question = random.between(1, 8) as u8;
    let lane = random.below(1_000);
    near_miss(random, question, lane)
}

fn small() -> Bounds {
    Bounds {
        workflows: 2,
        least_size: 1,
        most_size: 12,
        partitions: 2,
        with_blocks: false,
    }
}

fn wrong_count(random: &mut Random, lane: usize) -> Vec<u8> {
    let mut bytes = pack::encode(&right_pack(random, small()));
    match lane % 4 {
        0 => return Vec::new(),
        1 => return pack::encode(&vec![vec![(0xB0, 0)]; 17]),
        2 => bytes[0] = 0,
        _ => bytes[0] = random.pick(&[17, 18, 32, 128, 255]),
    }
    bytes
}

fn wrong_sizes(random: &mut Random, lane: usize) -> Vec<u8> {
    let mut bytes = pack::encode(&right_pack(random, small()));
    match lane % 6 {
        0 => bytes.truncate(random.between(1, 4)),
        1 => return pack::encode(&[right_workflow(random, 257, 2)]),
        2 => return sizes_only(&[256, 256, 256, 256, 256, 256, 256, 256, 1]),
        3 => return sizes_only(&[129; 16]),
        4 => bytes[3..5].copy_from_slice(&[0, 0]),
        _ => {
            let size: u16 = random.pick(&[0, 257, 258, 512, 65_535]);
            bytes[1..3].copy_from_slice(&size.to_le_bytes());
        }
    }
    bytes
}

/// A count and its sizes; the sum is asked about before the length.
fn sizes_only(sizes: &[u16]) -> Vec<u8> {
    let mut bytes = vec![sizes.len() as u8];
    bytes.extend(sizes.iter().flat_map(|size| size.to_le_bytes()));
    bytes
}

fn wrong_length(random: &mut Random, lane: usize) -> Vec<u8> {
    let workflows = right_pack(random, small());
    let mut bytes = pack::encode(&workflows);
    let length = bytes.len();
    match lane % 5 {
        0 => bytes.truncate(length - 1),
        1 => bytes.push(random.byte()),
        2 => bytes.truncate(1 + 2 * workflows.len()),
        3 => bytes.truncate(random.between(1 + 2 * workflows.len(), length - 1)),
        _ => bytes.extend([0; 5]),
    }
    bytes
}

/// Right workflows before and behind, so that the place is not always 0.
fn among_others(random: &mut Random, workflow: Rows) -> Vec<u8> {
    let mut workflows = Vec::new();
    for _ in 0..random.below(3) {
        let size = random.between(1, 8);
        workflows.push(right_workflow(random, size, 2));
    }
    workflows.push(workflow);
    if random.one_in(2) {
        // What stands behind the first no is not asked about: it may be wrong as well.
        workflows.push(vec![(random.byte(), random.word())]);
    }
    pack::encode(&workflows)
}

fn some_workflow(random: &mut Random) -> Rows {
    let size = random.between(1, 16);
    right_workflow(random, size, 2)
}

/// Question 4: bit 3 is set, or the operation is C to F.
fn no_operation(random: &mut Random, lane: usize) -> Rows {
    let mut rows = some_workflow(random);
    let index = random.below(rows.len());
    let byte = &mut rows[index].0;
    *byte = match lane % 3 {
        0 => random.between(0xC0, 0xFF) as u8 & 0xF7,
        _ => *byte | 8,
    };
    rows
}

/// Question 5: a word or a fixed register just outside its range.
const OUT_OF_RANGE: [Template; 10] = [
    register_8,
    register_8_inside,
    jump_register_8,
    jump_to_itself,
    jump_back,
    jump_behind_the_end,
    partition_8,
    begin_with_register,
    end_with_word,
    return_with_word,
];

fn register_8(random: &mut Random, rows: &mut Rows) {
    let byte = random.pick(&[0x10, 0x20, 0x30]) | random.below(8) as u8;
    rows.push((byte, random.pick(&[8, 9, 16, 256, 65_536, u32::MAX])));
}

fn register_8_inside(random: &mut Random, rows: &mut Rows) {
    let byte = random.pick(&[0x80, 0x90, 0xA0]) | random.below(8) as u8;
    let word = random.pick(&[8, 9, 16, 256, 65_536, u32::MAX]);
    rows.extend([(0x60, 0), (byte, word), (0x70, 0)]);
}

fn jump_register_8(random: &mut Random, rows: &mut Rows) {
    let (byte, word) = jump(random, rows.len() + 1);
    rows.extend([(byte, word | 8), (0x01, 5)]);
}

fn jump_to_itself(random: &mut Random, rows: &mut Rows) {
    let own = rows.len();
    rows.push(jump(random, own));
}

fn jump_back(random: &mut Random, rows: &mut Rows) {
    rows.push((0x02, 9));
    let target = random.below(rows.len());
    rows.push(jump(random, target));
}

/// To the size of the workflow or far beyond: only the RETURN is to come.
fn jump_behind_the_end(random: &mut Random, rows: &mut Rows) {
    let size = rows.len() + 2;
    let target = random.pick(&[size, size, size + 1, 256, (1 << 28) - 1]);
    rows.push(jump(random, target));
}

fn partition_8(random: &mut Random, rows: &mut Rows) {
    rows.extend([(0x60, random.pick(&[8, 9, 256, u32::MAX])), (0x70, 0)]);
}

fn begin_with_register(random: &mut Random, rows: &mut Rows) {
    rows.extend([(0x60 | random.between(1, 7) as u8, 0), (0x70, 0)]);
}

fn end_with_word(random: &mut Random, rows: &mut Rows) {
    rows.extend([(0x60, 0), (0x75, random.pick(&[1, 8, 256, 1 << 31]))]);
}

fn return_with_word(random: &mut Random, rows: &mut Rows) {
    rows.push((0xB3, random.pick(&[1, 8, 256, 1 << 31])));
}

/// Question 7: 17 PUTs or more in a block, at times after a block with the full 16.
fn too_many_puts(random: &mut Random, lane: usize) -> Rows {
    let mut rows = Rows::new();
    push_plain(random, &mut rows);
    if lane % 2 == 1 {
        push_puts(random, &mut rows, 16);
    }
    let puts = random.pick(&[17, 17, 17, 18, 20]);
    push_puts(random, &mut rows, puts);
    rows.push((0xB0, 0));
    rows
}

fn push_puts(random: &mut Random, rows: &mut Rows, puts: usize) {
    rows.push((0x60, 0));
    for _ in 0..puts {
        if random.one_in(5) {
            rows.push((0x80 | random.below(8) as u8, random.below(8) as u32));
        }
        rows.push((0x90 | random.below(8) as u8, random.below(8) as u32));
    }
    rows.push((0x70, 0));
}

/// Question 8: the last instruction is something else, though it may stand there.
fn no_return(random: &mut Random, lane: usize) -> Rows {
    let mut rows = some_workflow(random);
    match lane % 4 {
        0 => rows.extend([(0x60, 0), (0x75, 0)]),
        1 => rows.extend([(0x60, 1), (0x83, 2)]),
        2 => rows.push((random.pick(&[0x00, 0x17, 0x21, 0x30]), 7)),
        _ => {
            rows.pop();
            rows.push((0x10, 0));
        }
    }
    rows
}

/// Appends up to three instructions that may stand anywhere.
fn push_plain(random: &mut Random, rows: &mut Rows) {
    for _ in 0..random.below(4) {
        let code = random.below(4) as u8;
        rows.push((code << 4 | random.below(8) as u8, random.below(8) as u32));
    }
}

fn jump(random: &mut Random, target: usize) -> (u8, u32) {
    let byte = random.pick(&[0x40, 0x50]) | random.below(8) as u8;
    (byte, (16 * target + random.below(8)) as u32)
}

/// Appends something that is wrong to a workflow; its RETURN comes right behind.
type Template = fn(&mut Random, &mut Rows);

fn from_template(random: &mut Random, template: Template) -> Rows {
    let mut rows = Rows::new();
    push_plain(random, &mut rows);
    template(random, &mut rows);
    rows.push((0xB0, 0));
    rows
}

/// Question 6. Bytes that only look like BEGIN or END are there too: they count for a
/// jump before them, and are refused themselves only when their turn comes.
const WRONG_SIDE: [Template; 14] = [
    nested_begin,
    return_inside,
    row_access_outside,
    end_outside,
    block_without_end,
    jump_into_block,
    jump_onto_end,
    jump_over_end,
    jump_over_likeness_of_begin,
    jump_over_likeness_of_end,
    jump_over_wrong_begin,
    jump_over_nested_begin,
    jump_over_block_with_likeness,
    jump_onto_likeness,
];

/// The RETURN behind stands inside.
fn block_without_end(random: &mut Random, rows: &mut Rows) {
    rows.push((0x60, 0));
    push_plain(random, rows);
}

fn nested_begin(random: &mut Random, rows: &mut Rows) {
    rows.push((0x60, 0));
    push_plain(random, rows);
    rows.extend([(0x60, 1), (0x70, 0)]);
}

fn return_inside(random: &mut Random, rows: &mut Rows) {
    rows.push((0x60, 0));
    push_plain(random, rows);
    rows.extend([(0xB1, 0), (0x70, 0)]);
}

fn row_access_outside(random: &mut Random, rows: &mut Rows) {
    let byte = random.pick(&[0x80, 0x90, 0xA0]) | random.below(8) as u8;
    rows.push((byte, random.below(8) as u32));
}

fn end_outside(random: &mut Random, rows: &mut Rows) {
    rows.push((0x70 | random.below(8) as u8, 0));
}

fn jump_into_block(random: &mut Random, rows: &mut Rows) {
    let base = rows.len();
    let target = base + random.between(2, 3);
    rows.push(jump(random, target));
    rows.extend([(0x60, 0), (0x01, 5), (0x82, 1), (0x70, 0)]);
}

/// An END stands inside its block.
fn jump_onto_end(random: &mut Random, rows: &mut Rows) {
    let base = rows.len();
    rows.push(jump(random, base + 3));
    rows.extend([(0x60, 0), (0x01, 5), (0x70, 0)]);
}

fn jump_over_end(random: &mut Random, rows: &mut Rows) {
    let base = rows.len();
    let target = base + random.between(3, 4);
    rows.push((0x60, 0));
    rows.push(jump(random, target));
    rows.extend([(0x70, 0), (0x01, 5), (0x12, 1)]);
}

fn jump_over_likeness_of_begin(random: &mut Random, rows: &mut Rows) {
    let base = rows.len();
    rows.push(jump(random, base + 2));
    rows.extend([(0x68 | random.below(8) as u8, 0), (0x01, 5)]);
}

fn jump_over_likeness_of_end(random: &mut Random, rows: &mut Rows) {
    let base = rows.len();
    rows.push((0x60, 0));
    rows.push(jump(random, base + 3));
    rows.extend([(0x78 | random.below(8) as u8, 0), (0x01, 5), (0x70, 0)]);
}

fn jump_over_wrong_begin(random: &mut Random, rows: &mut Rows) {
    let base = rows.len();
    rows.push(jump(random, base + 2));
    rows.extend([random.pick(&[(0x61, 0), (0x60, 8)]), (0x01, 5), (0x70, 0)]);
}

/// The jump is right; the BEGIN it passes is not.
fn jump_over_nested_begin(random: &mut Random, rows: &mut Rows) {
    let base = rows.len();
    rows.push((0x60, 0));
    rows.push(jump(random, base + 3));
    rows.extend([(0x60, 0), (0x01, 5), (0x70, 0)]);
}

/// The jump lands outside by the likeness of an END; the likeness is refused by 4.
fn jump_over_block_with_likeness(random: &mut Random, rows: &mut Rows) {
    let base = rows.len();
    rows.push(jump(random, base + 3));
    rows.extend([(0x60, 0), (0x78 | random.below(8) as u8, 0), (0x01, 5)]);
}

/// A jump may land on a likeness: what counts stands before the target.
fn jump_onto_likeness(random: &mut Random, rows: &mut Rows) {
    let base = rows.len();
    if random.one_in(2) {
        rows.push(jump(random, base + 2));
        rows.extend([(0x01, 5), (0x68 | random.below(8) as u8, 0), (0x70, 0)]);
    } else {
        rows.push((0x60, 0));
        rows.push(jump(random, base + 3));
        rows.extend([(0x01, 5), (0x78 | random.below(8) as u8, 0), (0x70, 0)]);
    }
}
