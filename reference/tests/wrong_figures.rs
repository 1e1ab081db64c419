//! Each wrong reading of W-202 gives other figures in some stored cases (seed 11).

use reference::cases::{Case, Order};
use reference::generate;
use reference::pack::open;
use reference::{Figures, Instruction, Operation, Pack, Workflow};

/// An instruction, and the partition of the block that it stands in.
struct Place {
    instruction: Instruction,
    inside: Option<u32>,
}

type Next = fn(&Place, usize) -> Vec<usize>;
type IsTurn = fn(&Place) -> bool;
type RowIn = fn(&[Place], usize) -> Option<u32>;

/// Where a route goes on, and what counts on it.
#[derive(Clone, Copy)]
struct Reading {
    next: Next,
    is_turn: IsTurn,
    row_in: RowIn,
}

const RIGHT: Reading = Reading {
    next: |place, index| match place.instruction.operation {
        Operation::Return => vec![],
        Operation::Jlt | Operation::Jeq => vec![index + 1, place.instruction.target()],
        _ => vec![index + 1],
    },
    is_turn: |place| place.inside.is_none(),
    row_in: |places, index| match places[index].instruction.operation {
        Operation::Begin => Some(places[index].instruction.w),
        Operation::Put => places[index].inside,
        _ => None,
    },
};

fn places(workflow: &Workflow) -> Vec<Place> {
    let mut inside = None;
    let all = (0..workflow.size()).map(|index| {
        let instruction = workflow.instruction(index).expect("a checked pack");
        let place = Place {
            instruction,
            inside,
        };
        match instruction.operation {
            Operation::Begin => inside = Some(instruction.w),
            Operation::End => inside = None,
            _ => {}
        }
        place
    });
    all.collect()
}

/// The figures from an instruction on, of the routes that `better` picks at each jump.
fn walk(reading: Reading, places: &[Place], better: fn(Figures, Figures) -> Figures) -> Figures {
    let mut from = vec![Figures::default(); places.len() + 1];
    for (index, place) in places.iter().enumerate().rev() {
        let next = (reading.next)(place, index)
            .into_iter()
            .map(|next| from[next]);
        let mut figures = next.reduce(better).unwrap_or_default();
        figures.turns += u32::from((reading.is_turn)(place));
        if let Some(partition) = (reading.row_in)(places, index) {
            figures.rows[partition as usize] += 1;
        }
        from[index] = figures;
    }
    from[0]
}

/// Each figure by its own route.
fn each(one: Figures, other: Figures) -> Figures {
    Figures {
        turns: one.turns.max(other.turns),
        rows: std::array::from_fn(|partition| one.rows[partition].max(other.rows[partition])),
    }
}

/// All figures by the route with the most turns.
fn longest(one: Figures, other: Figures) -> Figures {
    match one.turns >= other.turns {
        true => one,
        false => other,
    }
}

/// Instead of the sum over a route, the rows of its largest block.
fn largest_block(places: &[Place]) -> Figures {
    let mut figures = walk(RIGHT, places, each);
    let blocks = places.split(|place| place.instruction.operation == Operation::End);
    let own = blocks.map(|block| {
        let puts = block
            .iter()
            .filter(|place| place.instruction.operation == Operation::Put);
        puts.count() as u32 + 1
    });
    let most = own.max().unwrap_or(0);
    figures
        .rows
        .iter_mut()
        .for_each(|rows| *rows = (*rows).min(most));
    figures
}

fn puts_before(places: &[Place], index: usize) -> impl Iterator<Item = &Place> {
    let block = places[..index]
        .iter()
        .rev()
        .take_while(|place| place.inside.is_some());
    block.filter(|place| place.instruction.operation == Operation::Put)
}

type Read = Box<dyn Fn(&[Place]) -> Figures>;

fn by_next(next: Next) -> Read {
    Box::new(move |places| walk(Reading { next, ..RIGHT }, places, each))
}

fn by_turns(is_turn: IsTurn) -> Read {
    Box::new(move |places| walk(Reading { is_turn, ..RIGHT }, places, each))
}

fn by_rows(row_in: RowIn) -> Read {
    Box::new(move |places| walk(Reading { row_in, ..RIGHT }, places, each))
}

fn wrong_readings() -> Vec<(&'static str, Read)> {
    vec![
        (
            "a jump never goes",
            by_next(|place, index| (RIGHT.next)(place, index).into_iter().take(1).collect()),
        ),
        (
            "a jump always goes",
            by_next(|place, index| {
                (RIGHT.next)(place, index)
                    .into_iter()
                    .rev()
                    .take(1)
                    .collect()
            }),
        ),
        (
            // That it never goes is no wrong reading: what a jump leaps over in a block only adds rows.
            "a jump in a block always goes",
            by_next(|place, index| {
                let ways = (RIGHT.next)(place, index);
                match place.inside {
                    Some(_) => ways.into_iter().rev().take(1).collect(),
                    None => ways,
                }
            }),
        ),
        (
            "code behind RETURN counts",
            by_next(|place, index| match place.instruction.operation {
                Operation::Return => vec![index + 1],
                _ => (RIGHT.next)(place, index),
            }),
        ),
        (
            "RETURN is no turn",
            by_turns(|place| {
                place.inside.is_none() && place.instruction.operation != Operation::Return
            }),
        ),
        ("each instruction of a block is a turn", by_turns(|_| true)),
        (
            "the log row does not count",
            by_rows(|places, index| match places[index].instruction.operation {
                Operation::Begin => None,
                _ => (RIGHT.row_in)(places, index),
            }),
        ),
        (
            "a key's second PUT does not count",
            by_rows(|places, index| {
                let d = places[index].instruction.d;
                let is_same = |put: &Place| put.instruction.d == d;
                let is_put = places[index].instruction.operation == Operation::Put;
                let again = is_put && puts_before(places, index).any(is_same);
                (RIGHT.row_in)(places, index).filter(|_| !again)
            }),
        ),
        (
            "PUTs count in partition 0",
            by_rows(|places, index| match places[index].instruction.operation {
                Operation::Put => Some(0),
                _ => (RIGHT.row_in)(places, index),
            }),
        ),
        ("the largest block counts", Box::new(largest_block)),
        (
            "all figures have the longest route",
            Box::new(|places| walk(RIGHT, places, longest)),
        ),
    ]
}

/// The accepted calls for figures among the stored cases: pack and workflow.
fn stored() -> Vec<(Vec<u8>, u32)> {
    let mut found = Vec::new();
    for case in generate::cases(11, 1_000) {
        let Case::Call(case) = case else { continue };
        let Order::Figures { workflow } = case.order else {
            continue;
        };
        if case.perform().outcome.is_ok() {
            found.push((case.pack, workflow));
        }
    }
    found
}

#[test]
fn a_wrong_reading_of_figures_shows() {
    let stored = stored();
    assert!(stored.len() >= 50, "{}", stored.len());
    for (pack, workflow) in &stored {
        let places = places(&open(pack, *workflow).expect("accepted"));
        let right = reference::figures::figures(pack, *workflow);
        assert_eq!(Ok(walk(RIGHT, &places, each)), right);
    }
    for (reading, read) in wrong_readings() {
        let shows = |(pack, workflow): &&(Vec<u8>, u32)| {
            let places = places(&open(pack, *workflow).expect("accepted"));
            read(&places) != walk(RIGHT, &places, each)
        };
        let times = stored.iter().filter(shows).count();
        assert!(times >= 5, "{reading}: {times}");
    }
}

/// The number names the workflow: that of the first, or of the last, would show.
#[test]
fn figures_are_those_of_the_workflow_named() {
    let [mut first, mut last] = [0; 2];
    for (pack, workflow) in stored() {
        let all = Pack::read(&pack).expect("accepted");
        let figures = |number: usize| Figures::of(&all.workflows()[number]);
        let own = figures(workflow as usize);
        first += usize::from(figures(0) != own);
        last += usize::from(figures(all.workflows().len() - 1) != own);
    }
    assert!(first >= 5 && last >= 5, "{first} {last}");
}

/// Each of 1 to 8 and 17, and a no of 1 to 8 where 17 would say no too.
#[test]
fn refusals_of_figures_are_among_the_cases() {
    let mut times = [0; 25];
    let mut both = 0;
    for case in generate::cases(11, 1_000) {
        let Case::Call(case) = case else { continue };
        let (Order::Figures { workflow }, Err(no)) = (case.order, case.perform().outcome) else {
            continue;
        };
        times[usize::from(no.question)] += 1;
        both += usize::from(no.question < 17 && workflow >= 16);
    }
    let asked: Vec<usize> = (0..25).filter(|question| times[*question] > 0).collect();
    assert_eq!(asked, [1, 2, 3, 4, 5, 6, 7, 8, 17], "{times:?}");
    assert!(both > 0);
}
