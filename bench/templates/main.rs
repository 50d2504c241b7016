//! How long `local` takes to tell whether Black joins top and bottom on carriers of twelve cells, in nanoseconds a call: the
//! least of 20 rounds. The first two are a whole board of 3 by 4, the others are hard ones of many that were drawn.
#![tactic(auto)]

mod clock;

use crate::clock::since;
use hx_board::{Colour, Mask, Position, Size, Vertex};
use hx_template::{MOST_CELLS, local};
use std::alloc::Global;
use std::io;
use std::time::Instant;

const ROUNDS: u32 = 20;

/// A local game: the size of the board, the stones, and the carrier.
#[derive(Clone, Copy)]
struct Task {
    rows: u8,
    cols: u8,
    black: u128,
    white: u128,
    carrier: u128,
    to_move: Colour,
}

/// Whether Black joins top and bottom, where that may be asked.
fn asked(alloc: Global, position: &Position, carrier: Mask, to_move: Colour) -> bool {
    if carrier.count() > MOST_CELLS || !carrier.inside(position.empties()) {
        return false;
    }
    match local(
        alloc,
        position,
        Colour::Black,
        Vertex::First,
        Vertex::Last,
        carrier,
        to_move,
    ) {
        Ok(answer) => answer,
        Err(_) => false,
    }
}

/// The position of a task, if it is one.
fn position_of(task: Task) -> Option<Position> {
    let size = Size::new(task.rows, task.cols)?;
    Position::from_masks(size, Mask::of(task.black), Mask::of(task.white))
}

fn measure(rt: &HostRuntime, task: Task) -> io::Result<()> {
    let Some(position) = position_of(task) else {
        return Ok(());
    };
    let carrier = Mask::of(task.carrier);
    let mut least = u64::MAX;
    let mut yes = false;
    for _ in 0..ROUNDS {
        let start = Instant::now(rt)?;
        yes = asked(rt.alloc(), &position, carrier, task.to_move);
        least = least.min(since(rt, start)?);
    }
    let rows = task.rows;
    let cols = task.cols;
    println!(rt; "{rows} by {cols} joins {yes} ns {least}")?;
    Ok(())
}

fn game(rows: u8, cols: u8, black: u128, white: u128, carrier: u128, to_move: Colour) -> Task {
    Task {
        rows,
        cols,
        black,
        white,
        carrier,
        to_move,
    }
}

fn main(rt: HostRuntime) -> io::Result<()> {
    let tasks = [
        game(3, 4, 0, 0, 0x3c0780f, Colour::Black),
        game(3, 4, 0, 0, 0x3c0780f, Colour::White),
        game(4, 10, 0x260a0020100, 0x10840140200, 0x701e07c, Colour::Black),
        game(5, 9, 0x440000244c880, 0x1c000090004, 0x1103c4d800020, Colour::Black),
        game(3, 7, 0x8040, 0x20, 0x1c0781f, Colour::White),
        game(6, 4, 0xc0380b, 0x2000000, 0x780f01c01000000, Colour::Black),
    ];
    for next in tasks {
        measure(&rt, next)?;
    }
    Ok(())
}
