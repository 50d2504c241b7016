//! How long sets of links take to be closed and reached, and how many links they then hold: on
//! empty boards, on drawn positions, and after one stone more.
#![tactic(auto)]

mod clock;
mod positions;

use crate::clock::since;
use crate::positions::after_stones;
use hx_board::{CELLS, Cell, Colour, Position, Size, Vertex};
use hx_link::Kind;
use hx_linkset::LinkSet;
use hx_reach::{Reached, reach};
use hx_search::{Closure, close};
use hx_test_support::Draws;
use std::io;
use std::time::Instant;

/// What the drawn positions come from.
const SEED: u64 = 2026;

/// What several calls took together.
#[derive(Clone, Copy)]
struct Sum {
    calls: u64,
    nanoseconds: u64,
    links: u64,
    full: u64,
    semi: u64,
    done: u64,
}

const NOTHING: Sum = Sum {
    calls: 0,
    nanoseconds: 0,
    links: 0,
    full: 0,
    semi: 0,
    done: 0,
};

impl Sum {
    /// One call more: its time, how many links it added or left, and whether it closed or decided.
    fn with(self, set: &LinkSet, nanoseconds: u64, links: u32, done: bool) -> Sum {
        let full = set.first_of(Kind::Full, Vertex::First, Vertex::Last);
        let semi = set.first_of(Kind::Semi, Vertex::First, Vertex::Last);
        Sum {
            calls: self.calls.wrapping_add(1),
            nanoseconds: self.nanoseconds.wrapping_add(nanoseconds),
            links: self.links.wrapping_add(u64::from(links)),
            full: self.full.wrapping_add(u64::from(full.is_some())),
            semi: self.semi.wrapping_add(u64::from(semi.is_some())),
            done: self.done.wrapping_add(u64::from(done)),
        }
    }

    fn print(self, rt: &HostRuntime, what: &str) -> io::Result<()> {
        let calls = self.calls.max(1);
        println!(rt;
            "  {what}: {} us, {} links, sides joined Full in {}, Semi in {}, done {}, of {}",
            self.nanoseconds / 1000 / calls,
            self.links / calls,
            self.full,
            self.semi,
            self.done,
            self.calls
        )
    }
}

/// `reach` on a new set.
fn reached(
    rt: &HostRuntime,
    sum: Sum,
    position: &Position,
    colour: Colour,
    to_move: Colour,
) -> io::Result<Sum> {
    let start = Instant::now(rt)?;
    let Ok(mut set) = LinkSet::new(rt.alloc(), position, colour) else {
        return Ok(sum);
    };
    let answer = reach(&mut set, to_move);
    let took = since(rt, start)?;
    let done = matches!(answer, Ok(Reached::Decided(_)));
    Ok(sum.with(&set, took, set.count(), done))
}

/// `close` on a new set.
fn closed(rt: &HostRuntime, sum: Sum, position: &Position, colour: Colour) -> io::Result<Sum> {
    let start = Instant::now(rt)?;
    let Ok(mut set) = LinkSet::new(rt.alloc(), position, colour) else {
        return Ok(sum);
    };
    let answer = close(&mut set);
    let took = since(rt, start)?;
    let done = matches!(answer, Ok(Closure::Closed));
    Ok(sum.with(&set, took, set.count(), done))
}

/// Both calls on the empty board, for Black.
fn empty(rt: &HostRuntime, side: u8) -> io::Result<()> {
    let Some(size) = Size::new(side, side) else {
        return Ok(());
    };
    println!(rt; "{side} by {side}, empty")?;
    let position = Position::empty(size);
    let mut with_move = NOTHING;
    let mut to_the_end = NOTHING;
    let mut whole = NOTHING;
    for _ in 0..10u32 {
        with_move = reached(rt, with_move, &position, Colour::Black, Colour::Black)?;
        to_the_end = reached(rt, to_the_end, &position, Colour::Black, Colour::White)?;
        whole = closed(rt, whole, &position, Colour::Black)?;
    }
    with_move.print(rt, "reach, Black to move")?;
    to_the_end.print(rt, "reach, White to move")?;
    whole.print(rt, "close")
}

/// Both calls on drawn positions, for each player with the other one to move.
fn on_drawn(rt: &HostRuntime, side: u8, stones: u32, positions: u32) -> io::Result<()> {
    let Some(size) = Size::new(side, side) else {
        return Ok(());
    };
    println!(rt; "{side} by {side}, {stones} stones")?;
    let mut to_the_end = NOTHING;
    let mut whole = NOTHING;
    let mut draws = Draws::new(SEED);
    for _ in 0..positions {
        let position = after_stones(&mut draws, size, stones);
        for colour in [Colour::Black, Colour::White] {
            to_the_end = reached(rt, to_the_end, &position, colour, colour.other())?;
            whole = closed(rt, whole, &position, colour)?;
        }
    }
    to_the_end.print(rt, "reach")?;
    whole.print(rt, "close")
}

/// Puts a stone on an empty cell, reaches, and takes the stone back.
fn one_stone(
    rt: &HostRuntime,
    sum: Sum,
    set: &mut LinkSet,
    colour: Colour,
    cell: Cell,
) -> io::Result<Sum> {
    let is_empty = set.position().empties().has(cell);
    if !is_empty {
        return Ok(sum);
    }
    let before = set.count();
    set.play(colour, cell);
    let start = Instant::now(rt)?;
    let answer = reach(set, colour.other());
    let took = since(rt, start)?;
    let done = matches!(answer, Ok(Reached::Decided(_)));
    let more = sum.with(set, took, set.count().saturating_sub(before), done);
    set.undo();
    Ok(more)
}

/// `reach` on a position that it leaves open, after a stone of either colour on each empty cell.
fn each_stone(rt: &HostRuntime, sum: Sum, position: &Position, player: Colour) -> io::Result<Sum> {
    let Ok(mut set) = LinkSet::new(rt.alloc(), position, player) else {
        return Ok(sum);
    };
    let Ok(Reached::Open) = reach(&mut set, player.other()) else {
        return Ok(sum);
    };
    let size = position.size();
    let mut all = sum;
    let mut left = position.empties();
    for _ in 0..CELLS {
        let Some(cell) = left.least(size) else {
            break;
        };
        left = left.without(cell);
        all = one_stone(rt, all, &mut set, Colour::Black, cell)?;
        all = one_stone(rt, all, &mut set, Colour::White, cell)?;
    }
    Ok(all)
}

/// `reach` on drawn positions that it leaves open, after a stone of either colour on each empty
/// cell.
fn after_one(rt: &HostRuntime, side: u8, stones: u32, positions: u32) -> io::Result<()> {
    let Some(size) = Size::new(side, side) else {
        return Ok(());
    };
    println!(rt; "{side} by {side}, {stones} stones and one more")?;
    let mut sum = NOTHING;
    let mut draws = Draws::new(SEED);
    for _ in 0..positions {
        let position = after_stones(&mut draws, size, stones);
        for player in [Colour::Black, Colour::White] {
            sum = each_stone(rt, sum, &position, player)?;
        }
    }
    sum.print(rt, "reach, links added")
}

fn main(rt: HostRuntime) -> io::Result<()> {
    for side in [4u8, 5, 6, 7, 8, 11] {
        empty(&rt, side)?;
    }
    on_drawn(&rt, 4, 5, 50)?;
    on_drawn(&rt, 5, 8, 50)?;
    on_drawn(&rt, 6, 12, 50)?;
    on_drawn(&rt, 7, 10, 10)?;
    on_drawn(&rt, 11, 20, 1)?;
    after_one(&rt, 7, 12, 10)?;
    after_one(&rt, 8, 16, 5)?;
    after_one(&rt, 11, 20, 2)
}
