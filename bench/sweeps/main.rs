//! How long `sweep` takes on the empty board of 3 by 3 and on 200 positions of 5 by 5 with nine
//! empty cells, and how many nodes its trees have.
#![tactic(auto)]

use hx_board::{Colour, Position, Size};
use hx_test_support::Draws;
use hx_sweep::sweep;
use std::io;
use std::time::Instant;

const POSITIONS: u32 = 200;

/// What the positions come from.
const SEED: u64 = 2026;

/// The nanoseconds of one search, and the nodes of its tree.
fn measured(rt: &HostRuntime, position: &Position, to_move: Colour) -> io::Result<(u128, usize)> {
    if position.empty_count() > 9 {
        return Ok((0, 0));
    }
    let start = Instant::now(rt)?;
    match sweep(rt.alloc(), position, to_move) {
        Ok(nodes) => Ok((start.elapsed(rt)?.as_nanos(), nodes.len())),
        Err(_) => Ok((0, 0)),
    }
}

fn main(rt: HostRuntime) -> io::Result<()> {
    let (Some(three), Some(five)) = (Size::new(3, 3), Size::new(5, 5)) else {
        return Ok(());
    };
    let (time, nodes) = measured(&rt, &Position::empty(three), Colour::Black)?;
    println!(rt; "3 by 3: {} us, {nodes} nodes", time / 1000)?;
    let mut slowest = 0;
    let mut whole = 0u128;
    let mut most_nodes = 0;
    let mut all_nodes = 0usize;
    let mut draws = Draws::new(SEED);
    for _ in 0..POSITIONS {
        let position = draws.position(five, 9);
        for to_move in [Colour::Black, Colour::White] {
            let (time, nodes) = measured(&rt, &position, to_move)?;
            slowest = slowest.max(time);
            whole = whole.wrapping_add(time);
            most_nodes = most_nodes.max(nodes);
            all_nodes = all_nodes.wrapping_add(nodes);
        }
    }
    let searches = 2 * POSITIONS;
    println!(rt;
        "5 by 5: slowest {} us, on average {} us; most nodes {most_nodes}, on average {}",
        slowest / 1000,
        whole / 1000 / u128::from(searches),
        all_nodes / searches as usize
    )
}
