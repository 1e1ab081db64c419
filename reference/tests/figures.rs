//! Figures (W-202) by hand, and held to all routes, written out one by one.

mod common;

use common::routes::{all_routes, most, Route, Rows};
use common::*;
use reference::figures::figures;
use reference::generate::{branching, encoded_pack, near_miss, Bounds};
use reference::pack::{encode, open, MOST_PUTS};
use reference::random::Random;
use reference::{Figures, Refusal};

const JUMP_FAR: u32 = 16 * 255;

fn of(workflow: &[(u8, u32)]) -> Figures {
    figures(&encode(&[workflow.to_vec()]), 0).expect("a right pack")
}

/// Turns, then the rows of partition 0 and of each that follows; the others have none.
fn counted(turns: u32, rows: &[u32]) -> Figures {
    let mut all = [0; 8];
    all[..rows.len()].copy_from_slice(rows);
    Figures { turns, rows: all }
}

#[test]
fn the_executed_cases() {
    let in_partition_7 = counted(2, &[0, 0, 0, 0, 0, 0, 0, 1]);
    assert_eq!(of(&[(0x60, 7), END, RETURN]), in_partition_7);
    let one_key = [BEGIN, (0x90, 1), (0x90, 1), END, RETURN];
    assert_eq!(of(&one_key), counted(2, &[3]));
    let over_a_block = [(0x50, 0x30), BEGIN, END, RETURN];
    assert_eq!(of(&over_a_block), counted(3, &[1]));
    assert_eq!(of(&[RETURN, BEGIN, END, RETURN]), counted(1, &[]));
    assert_eq!(of(&move_workflow()), counted(4, &[2, 2]));
}

/// Written out one by one, 2^255 routes would never end.
#[test]
fn jumps_only() {
    let mut near: Rows = (1..256).map(|target| (0x40, 16 * target)).collect();
    near.push(RETURN);
    assert_eq!(of(&near), counted(256, &[]));
    let mut far = vec![(0x57, JUMP_FAR); 255];
    far.push(RETURN);
    assert_eq!(of(&far), counted(256, &[]));
    let mut next_but_one: Rows = (2..256).map(|target| (0x40, 16 * target)).collect();
    next_but_one.extend([SET, RETURN]);
    assert_eq!(of(&next_but_one), counted(256, &[]));
}

#[test]
fn the_most_blocks_and_the_most_puts() {
    let mut blocks = vec![SET];
    blocks.extend([(0x60, 5), END].repeat(127));
    blocks.push(RETURN);
    assert_eq!(of(&blocks), counted(129, &[0, 0, 0, 0, 0, 127]));
    let full_block = [vec![BEGIN], vec![PUT; MOST_PUTS], vec![END]].concat();
    let mut workflow = full_block.repeat(14);
    workflow.push(RETURN);
    assert_eq!(of(&workflow), counted(15, &[14 * 17]));
}

/// A jump goes either way where values never let it, in a block and outside.
#[test]
fn a_jump_goes_either_way() {
    // r0 < r0 never is, r0 = r0 always.
    let never = [BEGIN, (0x40, 16 * 3), PUT, PUT, END, RETURN];
    let always = [BEGIN, (0x50, 16 * 3), PUT, PUT, END, RETURN];
    assert_eq!(of(&never), counted(2, &[3]));
    assert_eq!(of(&always), counted(2, &[3]));
    let onto_end = [BEGIN, (0x50, 16 * 3), PUT, END, RETURN];
    assert_eq!(of(&onto_end), counted(2, &[2]));
    let past_block = [(0x50, 16 * 4), BEGIN, PUT, END, RETURN];
    assert_eq!(of(&past_block), counted(3, &[2]));
    let past_return = [(0x40, 16 * 2), RETURN, BEGIN, END, RETURN];
    assert_eq!(of(&past_return), counted(3, &[1]));
}

/// The most rows of partition 1 are on a route that ends early; the others' most is on another.
#[test]
fn each_figure_has_its_own_route() {
    let block = |partition| [(0x60, partition), PUT, END];
    let mut workflow = vec![(0x40, 16 * 5)];
    workflow.extend(block(1));
    workflow.push(RETURN);
    workflow.extend([(0x40, 16 * 9)]);
    workflow.extend(block(2));
    workflow.extend([SET, SET, SET, RETURN]);
    assert_eq!(of(&workflow), counted(7, &[0, 2, 2]));
}

#[test]
fn figures_put_1_to_8_and_17() {
    let mut random = Random::new(31);
    for question in 1..=8 {
        for lane in 0..40 {
            let pack = near_miss(&mut random, question, lane);
            let Err(refusal) = open(&pack, 0) else {
                continue;
            };
            // A no to 1 to 8 comes before one to 17.
            for workflow in [0, 1, 16, u32::MAX] {
                assert_eq!(figures(&pack, workflow), Err(refusal));
            }
        }
    }
    let pack = encode(&[vec![RETURN], move_workflow()]);
    assert_eq!(figures(&pack, 1), Ok(counted(4, &[2, 2])));
    for workflow in [2, 255, 256, 257, 65_536, 65_537, u32::MAX] {
        assert_eq!(figures(&pack, workflow), Err(Refusal::of(17)));
    }
    assert_eq!(figures(&[], 0), Err(Refusal::of(1)));
}

/// The only workflow of a pack, as operation bytes with their words.
fn only_workflow(pack: &[u8]) -> Rows {
    let (operations, words) = pack[3..].split_at(usize::from(pack[1]));
    let words = words
        .chunks(4)
        .map(|word| u32::from_le_bytes([word[0], word[1], word[2], word[3]]));
    operations.iter().copied().zip(words).collect()
}

/// More ends of routes: half of what does no more than change a register outside is RETURN.
fn with_returns(random: &mut Random, mut workflow: Rows) -> Rows {
    let mut inside = false;
    for row in &mut workflow {
        match row.0 >> 4 {
            6 => inside = true,
            7 => inside = false,
            0..=3 if !inside && random.one_in(2) => *row = RETURN,
            _ => {}
        }
    }
    workflow
}

fn any_right(random: &mut Random, size: usize) -> Rows {
    let bounds = Bounds {
        workflows: 1,
        least_size: size,
        most_size: size,
        partitions: 3,
        with_blocks: false,
    };
    only_workflow(&encoded_pack(random, bounds))
}

#[test]
fn the_figures_are_the_most_over_all_routes() {
    let mut random = Random::new(32);
    let (mut several, mut apart) = (0, 0);
    for round in 0..9_000 {
        let size = random.between(1, 24);
        let workflow = match round % 3 {
            0 => any_right(&mut random, size),
            1 => branching(&mut random, size, 8),
            _ => {
                let workflow = branching(&mut random, size, 2);
                with_returns(&mut random, workflow)
            }
        };
        let routes = all_routes(&workflow);
        let most = most(&routes);
        assert_eq!(of(&workflow), most, "{workflow:x?}");
        several += usize::from(routes.len() > 8);
        let reaches_all = |route: &Route| {
            (0..8).all(|partition| route.rows(partition) == most.rows[partition])
                && route.turns() == most.turns
        };
        apart += usize::from(!routes.iter().any(reaches_all));
    }
    // Routes were many, and often no single one had the most of everything.
    assert!(several > 1_000 && apart > 80, "{several} {apart}");
}
