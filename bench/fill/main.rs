//! How long fill-in and mustplay take on empty boards and on drawn positions, with the links of
//! each set found before.
#![tactic(auto)]

mod clock;
mod positions;

use crate::clock::since;
use crate::positions::after_stones;
use hx_board::{CELLS, Cell, Colour, Memory, Position, Size};
use hx_fill::{Filled, Must, fill_in, must};
use hx_linkset::LinkSet;
use hx_reach::reach;
use hx_test_support::Draws;
use std::io;
use std::time::Instant;

/// The calls on each position, of which the shortest one counts.
const ROUNDS: u32 = 10;

/// What the drawn positions come from.
const SEED: u64 = 2026;

/// What the calls on some positions took and gave together.
#[derive(Clone, Copy)]
struct Sum {
    positions: u64,
    fill_nanoseconds: u64,
    fills: u64,
    moves: u64,
    move_nanoseconds: u64,
    move_fills: u64,
    sets: u64,
    must_nanoseconds: u64,
    threats: u64,
    cells: u64,
    lines: u64,
}

const NOTHING: Sum = Sum {
    positions: 0,
    fill_nanoseconds: 0,
    fills: 0,
    moves: 0,
    move_nanoseconds: 0,
    move_fills: 0,
    sets: 0,
    must_nanoseconds: 0,
    threats: 0,
    cells: 0,
    lines: 0,
};

impl Sum {
    fn add_fill(&mut self, filled: &Filled, nanoseconds: u64) {
        self.positions = self.positions.wrapping_add(1);
        self.fill_nanoseconds = self.fill_nanoseconds.wrapping_add(nanoseconds);
        self.fills = self.fills.wrapping_add(filled.steps.len() as u64);
    }

    fn add_move(&mut self, filled: &Filled, nanoseconds: u64) {
        self.moves = self.moves.wrapping_add(1);
        self.move_nanoseconds = self.move_nanoseconds.wrapping_add(nanoseconds);
        self.move_fills = self.move_fills.wrapping_add(filled.steps.len() as u64);
    }

    fn add_must(&mut self, found: &Must, nanoseconds: u64) {
        self.sets = self.sets.wrapping_add(1);
        self.must_nanoseconds = self.must_nanoseconds.wrapping_add(nanoseconds);
        self.threats = self
            .threats
            .wrapping_add(found.threats.items().len() as u64);
        self.cells = self.cells.wrapping_add(u64::from(found.cells.count()));
        self.lines = self.lines.wrapping_add(found.under.items().len() as u64);
    }

    fn print(&self, rt: &HostRuntime, side: u8, stones: u32) -> io::Result<()> {
        let positions = self.positions.max(1);
        let moves = self.moves.max(1);
        let sets = self.sets.max(1);
        println!(rt; "{side} by {side}, {stones} stones")?;
        println!(rt;
            "  fill-in {} ns, {} steps in {positions}; after a move {} ns, {} steps in {moves}",
            self.fill_nanoseconds / positions,
            self.fills,
            self.move_nanoseconds / moves,
            self.move_fills
        )?;
        println!(rt;
            "  must {} ns, {} threats, {} cells, {} lines in {sets}",
            self.must_nanoseconds / sets,
            self.threats,
            self.cells,
            self.lines
        )
    }
}

/// `must` on a set of this player, the opponent to move; the better cells are gone through in cell order.
fn with_must(
    rt: &HostRuntime,
    sum: &mut Sum,
    position: &Position,
    player: Colour,
) -> io::Result<()> {
    let Ok(mut set) = LinkSet::new(rt.alloc(), position, player) else {
        return Ok(());
    };
    let _ = reach(&mut set, player.other());
    let mut least = u64::MAX;
    for _ in 0..ROUNDS {
        let start = Instant::now(rt)?;
        let answer = must(&set, &[]);
        least = least.min(since(rt, start)?);
        drop(answer);
    }
    if let Ok(found) = must(&set, &[]) {
        sum.add_must(&found, least);
    }
    Ok(())
}

/// The position filled, and the nanoseconds of the shortest call.
fn timed_fill(rt: &HostRuntime, position: &Position) -> io::Result<(Result<Filled, Memory>, u64)> {
    let mut least = u64::MAX;
    for _ in 0..ROUNDS {
        let start = Instant::now(rt)?;
        let answer = fill_in(rt.alloc(), position);
        least = least.min(since(rt, start)?);
        drop(answer);
    }
    Ok((fill_in(rt.alloc(), position), least))
}

/// `fill_in` after a move to an empty cell.
fn with_move(
    rt: &HostRuntime,
    sum: &mut Sum,
    position: &Position,
    colour: Colour,
    cell: Cell,
) -> io::Result<()> {
    let is_empty = position.empties().has(cell);
    if is_empty {
        let (answer, nanoseconds) = timed_fill(rt, &position.with(colour, cell))?;
        if let Ok(filled) = answer {
            sum.add_move(&filled, nanoseconds);
        }
    }
    Ok(())
}

/// `fill_in` after each move of either player.
fn with_moves(rt: &HostRuntime, sum: &mut Sum, position: &Position) -> io::Result<()> {
    let size = position.size();
    for colour in [Colour::Black, Colour::White] {
        let mut left = position.empties();
        for _ in 0..CELLS {
            let Some(cell) = left.least(size) else {
                break;
            };
            left = left.without(cell);
            with_move(rt, sum, position, colour, cell)?;
        }
    }
    Ok(())
}

/// `fill_in` on a position, and on the position after it `fill_in` after each move, and `must` for
/// each player.
fn with(rt: &HostRuntime, sum: &mut Sum, position: &Position) -> io::Result<()> {
    let (answer, nanoseconds) = timed_fill(rt, position)?;
    let Ok(filled) = answer else {
        return Ok(());
    };
    sum.add_fill(&filled, nanoseconds);
    with_moves(rt, sum, &filled.position)?;
    with_must(rt, sum, &filled.position, Colour::Black)?;
    with_must(rt, sum, &filled.position, Colour::White)
}

fn measure(rt: &HostRuntime, side: u8, stones: u32, positions: u32) -> io::Result<()> {
    let Some(size) = Size::new(side, side) else {
        return Ok(());
    };
    let mut sum = NOTHING;
    let mut draws = Draws::new(SEED);
    for _ in 0..positions {
        with(rt, &mut sum, &after_stones(&mut draws, size, stones))?;
    }
    sum.print(rt, side, stones)
}

fn main(rt: HostRuntime) -> io::Result<()> {
    measure(&rt, 7, 0, 1)?;
    measure(&rt, 7, 12, 50)?;
    measure(&rt, 8, 0, 1)?;
    measure(&rt, 8, 16, 50)?;
    measure(&rt, 11, 0, 1)?;
    measure(&rt, 11, 20, 10)
}
