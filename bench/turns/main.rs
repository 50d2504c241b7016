//! How long `turned`, `Orientations` and keys take on about 100 positions of 11 by 11, in nanoseconds a call: the least of 500
//! rounds.
#![tactic(auto)]

mod positions;

use crate::positions::after_stones;
use hx_board::{Cell, Colour, Size};
use hx_test_support::Draws;
use hx_turn::{Orientations, folded_key, key, turned};
use std::io;
use std::time::Instant;

const ROUNDS: u32 = 500;

/// What the positions come from.
const SEED: u64 = 2026;

fn turns(positions: &[Orientations]) -> u64 {
    let mut found = 0u64;
    for both in positions {
        let other = turned(both.position());
        found = found.wrapping_add(u64::from(other.empties().count()));
    }
    found
}

/// The test before a stone is put, alone.
fn tests(positions: &[Orientations], cell: Cell) -> u64 {
    let mut found = 0u64;
    for both in positions {
        if both.position().empties().has(cell) {
            found = found.wrapping_add(u64::from(both.turned().empties().count()));
        }
    }
    found
}

fn stones(positions: &[Orientations], cell: Cell) -> u64 {
    let mut found = 0u64;
    for both in positions {
        if both.position().empties().has(cell) {
            let more = both.with(Colour::Black, cell);
            found = found.wrapping_add(u64::from(more.turned().empties().count()));
        }
    }
    found
}

/// A stone more and then the key of both, as at each move of a search.
fn moves(positions: &[Orientations], cell: Cell) -> u64 {
    let mut found = 0u64;
    for both in positions {
        if both.position().empties().has(cell) {
            let more = both.with(Colour::Black, cell);
            found = found.wrapping_add(more.key(Colour::White));
        }
    }
    found
}

fn keys(positions: &[Orientations]) -> u64 {
    let mut found = 0u64;
    for both in positions {
        found = found.wrapping_add(both.key(Colour::Black));
    }
    found
}

fn keys_anew(positions: &[Orientations]) -> u64 {
    let mut found = 0u64;
    for both in positions {
        found = found.wrapping_add(key(both.position(), Colour::Black));
    }
    found
}

fn folded(positions: &[Orientations]) -> u64 {
    let mut found = 0u64;
    for both in positions {
        found = found.wrapping_add(folded_key(both.position(), Colour::Black));
    }
    found
}

/// What one round of one call finds.
fn round(positions: &[Orientations], cell: Cell, call: u32) -> u64 {
    match call {
        0 => turns(positions),
        1 => tests(positions, cell),
        2 => stones(positions, cell),
        3 => moves(positions, cell),
        4 => keys(positions),
        5 => keys_anew(positions),
        _ => folded(positions),
    }
}

fn measure(
    rt: &HostRuntime,
    positions: &[Orientations],
    cell: Cell,
    call: u32,
    name: &str,
) -> io::Result<()> {
    let mut least = u128::MAX;
    let mut found = 0u64;
    for _ in 0..ROUNDS {
        let start = Instant::now(rt)?;
        found = found.wrapping_add(round(positions, cell, call));
        least = least.min(start.elapsed(rt)?.as_nanos());
    }
    let count = (positions.len() as u128).max(1);
    println!(rt; "{name}: {} tenths of a ns ({found})", least.wrapping_mul(10) / count)
}

fn main(rt: HostRuntime) -> io::Result<()> {
    let Some(size) = Size::new(11, 11) else {
        return Ok(());
    };
    let Some(middle) = size.cell(5, 4) else {
        return Ok(());
    };
    let mut positions = Vec::new(rt.alloc());
    let mut draws = Draws::new(SEED);
    for _ in 0..128u32 {
        let position = after_stones(&mut draws, size, 60);
        if position.empties().has(middle) {
            positions.push(Orientations::of(&position))?;
        }
    }
    measure(&rt, &positions, middle, 0, "turned")?;
    measure(&rt, &positions, middle, 1, "a test for an empty cell")?;
    measure(&rt, &positions, middle, 2, "test and with")?;
    measure(&rt, &positions, middle, 3, "test, with and key")?;
    measure(&rt, &positions, middle, 4, "Orientations::key")?;
    measure(&rt, &positions, middle, 5, "key")?;
    measure(&rt, &positions, middle, 6, "folded_key")
}
