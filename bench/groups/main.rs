//! How long `Groups::of`, `chain` and `turned` take on 64 positions of 11 by 11 with 60 stones, in
//! nanoseconds a call: the least of 50 rounds.
#![tactic(auto)]

mod clock;
mod positions;

use crate::clock::since;
use crate::positions::after_stones;
use hx_board::{Colour, Groups, Position, Size, Vertex, chain};
use hx_test_support::Draws;
use hx_turn::turned;
use std::io;
use std::time::Instant;

const ROUNDS: u32 = 50;

const POSITIONS: u64 = 64;

/// What the positions come from.
const SEED: u64 = 2026;

fn joined(positions: &[Position]) -> u64 {
    let mut found = 0u64;
    for position in positions {
        let groups = Groups::of(position, Colour::Black);
        found = found.wrapping_add(u64::from(groups.joined(Vertex::First, Vertex::Last)));
    }
    found
}

fn chains(positions: &[Position]) -> u64 {
    let mut found = 0u64;
    for position in positions {
        found = found.wrapping_add(u64::from(chain(position, Colour::Black)));
    }
    found
}

fn turns(positions: &[Position]) -> u64 {
    let mut found = 0u64;
    for position in positions {
        found = found.wrapping_add(u64::from(turned(position).empties().count()));
    }
    found
}

/// The least times of the calls on all positions.
#[derive(Clone, Copy)]
struct Least {
    joined: u64,
    chains: u64,
    turns: u64,
}

impl Least {
    /// After one round more. What the calls found is added up, so that no call is left out.
    fn with_round(
        self,
        rt: &HostRuntime,
        positions: &[Position],
        found: &mut u64,
    ) -> io::Result<Least> {
        let start = Instant::now(rt)?;
        *found = found.wrapping_add(joined(positions));
        let joined = since(rt, start)?;
        let start = Instant::now(rt)?;
        *found = found.wrapping_add(chains(positions));
        let chains = since(rt, start)?;
        let start = Instant::now(rt)?;
        *found = found.wrapping_add(turns(positions));
        let turns = since(rt, start)?;
        Ok(Least {
            joined: self.joined.min(joined),
            chains: self.chains.min(chains),
            turns: self.turns.min(turns),
        })
    }
}

fn main(rt: HostRuntime) -> io::Result<()> {
    let Some(size) = Size::new(11, 11) else {
        return Ok(());
    };
    let mut draws = Draws::new(SEED);
    let mut positions = Vec::new(rt.alloc());
    for _ in 0..POSITIONS {
        positions.push(after_stones(&mut draws, size, 60))?;
    }
    let mut least = Least {
        joined: u64::MAX,
        chains: u64::MAX,
        turns: u64::MAX,
    };
    let mut found = 0u64;
    for _ in 0..ROUNDS {
        least = least.with_round(&rt, positions.as_slice(), &mut found)?;
    }
    println!(rt;
        "Groups::of {} ns, chain {} ns, turned {} ns ({found})",
        least.joined / POSITIONS,
        least.chains / POSITIONS,
        least.turns / POSITIONS
    )
}
