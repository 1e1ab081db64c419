//! All routes through a small workflow, written out one by one: each jump is tried both ways.
//! It reads operation bytes and words itself and has nothing of the counting under test.

use reference::Figures;

/// A workflow as operation bytes with their words.
pub type Rows = Vec<(u8, u32)>;

/// A turn of a route: an instruction outside, or a block by one way through it.
#[derive(Clone, Debug)]
pub enum Turn {
    Instruction,
    Block { partition: u32, puts: u32 },
}

/// A route, with the index of each jump that it passed and whether it went to the target.
#[derive(Clone, Debug, Default)]
pub struct Route {
    pub turns: Vec<Turn>,
    pub jumps: Vec<(usize, bool)>,
}

/// A way through a block: its PUTs, its jumps, and the position behind END.
#[derive(Clone, Debug, Default)]
struct Way {
    puts: u32,
    jumps: Vec<(usize, bool)>,
    behind: usize,
}

impl Route {
    pub fn turns(&self) -> u32 {
        self.turns.len() as u32
    }

    pub fn rows(&self, of: usize) -> u32 {
        let rows = self.turns.iter().map(|turn| match turn {
            Turn::Block { partition, puts } if *partition as usize == of => 1 + puts,
            _ => 0,
        });
        rows.sum()
    }

    fn passing(&self, turn: Turn, jumps: &[(usize, bool)]) -> Self {
        let mut route = self.clone();
        route.turns.push(turn);
        route.jumps.extend(jumps);
        route
    }
}

pub fn all_routes(workflow: &[(u8, u32)]) -> Vec<Route> {
    let mut found = Vec::new();
    go_on(workflow, 0, &Route::default(), &mut found);
    found
}

/// Follows a route from a position outside on.
fn go_on(workflow: &[(u8, u32)], position: usize, so_far: &Route, found: &mut Vec<Route>) {
    let (byte, word) = workflow[position];
    let by = |jumps: &[(usize, bool)]| so_far.passing(Turn::Instruction, jumps);
    match byte >> 4 {
        11 => found.push(by(&[])),
        6 => go_through(workflow, position, so_far, found),
        4 | 5 => {
            let target = word as usize / 16;
            go_on(workflow, target, &by(&[(position, true)]), found);
            go_on(workflow, position + 1, &by(&[(position, false)]), found);
        }
        _ => go_on(workflow, position + 1, &by(&[]), found),
    }
}

/// Follows a route by each way through the block that `begin` opens.
fn go_through(workflow: &[(u8, u32)], begin: usize, so_far: &Route, found: &mut Vec<Route>) {
    let mut ways = Vec::new();
    go_inside(workflow, begin + 1, Way::default(), &mut ways);
    let partition = workflow[begin].1;
    for Way {
        puts,
        jumps,
        behind,
    } in ways
    {
        let route = so_far.passing(Turn::Block { partition, puts }, &jumps);
        go_on(workflow, behind, &route, found);
    }
}

/// Follows a way from a position in a block up to its END.
fn go_inside(workflow: &[(u8, u32)], position: usize, mut way: Way, ways: &mut Vec<Way>) {
    let (byte, word) = workflow[position];
    match byte >> 4 {
        7 => {
            way.behind = position + 1;
            ways.push(way);
            return;
        }
        4 | 5 => {
            let mut goes = way.clone();
            goes.jumps.push((position, true));
            go_inside(workflow, word as usize / 16, goes, ways);
            way.jumps.push((position, false));
        }
        9 => way.puts += 1,
        _ => {}
    }
    go_inside(workflow, position + 1, way, ways);
}

/// The most found of each figure.
pub fn most(routes: &[Route]) -> Figures {
    let rows = |partition| routes.iter().map(|route| route.rows(partition)).max();
    Figures {
        turns: routes.iter().map(Route::turns).max().unwrap_or(0),
        rows: std::array::from_fn(|partition| rows(partition).unwrap_or(0)),
    }
}
