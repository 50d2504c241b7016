//! How long a player takes to answer a move, in games by the tree whose text is on standard input: the least, by round, of the mean
//! of all answers of 200 games. The opponent's moves are drawn by a seed.
#![tactic(auto)]

use hx_lex::cut;
use hx_play::Player;
use hx_parse::{Fed, TreeReader};
use hx_test_support::Draws;
use hx_tree::{Node, Verdict, check_tree, plain};
use std::alloc::{AllocError, Global};
use std::io;
use std::io::Read;
use std::time::Instant;

const ROUNDS: u32 = 20;

const GAMES: u32 = 200;

/// What the opponent's moves come from.
const SEED: u64 = 2026;

/// What was measured in some games.
#[derive(Clone, Copy)]
struct Measured {
    answers: u64,
    nanoseconds: u128,
    chains: u32,
}

/// The nodes of a tree's text.
fn read(alloc: Global, text: &[u8]) -> Result<Vec<Node>, AllocError> {
    let mut reader = TreeReader::new(alloc);
    let mut nodes = Vec::new(alloc);
    let mut rest = text;
    for _ in 0..text.len() {
        let Some((line, later)) = cut(rest, b'\n') else {
            break;
        };
        if let Ok(Fed::Node(node)) = reader.feed(line, true) {
            nodes.push(node)?;
        }
        rest = later;
    }
    Ok(nodes)
}

/// A player of these nodes, where they are a valid tree of plain nodes.
fn player_of(alloc: Global, nodes: Vec<Node>) -> Option<Player> {
    if u32::try_from(nodes.len()).is_err()
        || check_tree(alloc, nodes.as_slice()) != Ok(Verdict::Yes)
    {
        return None;
    }
    for node in &nodes {
        if !plain(node) {
            return None;
        }
    }
    Player::new(alloc, nodes).ok()
}

/// Plays one game against drawn moves.
fn play(
    rt: &HostRuntime,
    player: &mut Player,
    draws: &mut Draws,
    all: &mut Measured,
) -> io::Result<()> {
    player.first();
    for _ in 0..121u32 {
        if player.done() {
            all.chains = all.chains.saturating_add(1);
            return Ok(());
        }
        let position = player.position();
        let Some(cell) = draws.cell(position.size(), position.empties()) else {
            return Ok(());
        };
        let start = Instant::now(rt)?;
        player.answer(cell);
        let taken = start.elapsed(rt)?.as_nanos();
        all.nanoseconds = all.nanoseconds.saturating_add(taken);
        all.answers = all.answers.saturating_add(1);
    }
    Ok(())
}

fn main(rt: HostRuntime) -> io::Result<()> {
    let alloc = rt.alloc();
    let mut text = Vec::new(alloc);
    rt.stdin().read_to_end(&mut text)?;
    let mut least = u128::MAX;
    let mut answers = 0u64;
    let mut chains = 0u32;
    for _ in 0..ROUNDS {
        let mut draws = Draws::new(SEED);
        let mut all = Measured {
            answers: 0,
            nanoseconds: 0,
            chains: 0,
        };
        for _ in 0..GAMES {
            if let Some(mut player) = player_of(alloc, read(alloc, &text)?) {
                play(&rt, &mut player, &mut draws, &mut all)?;
            }
        }
        answers = all.answers;
        chains = all.chains;
        least = least.min(all.nanoseconds / u128::from(all.answers.max(1)));
    }
    println!(rt;
        "{GAMES} games with {answers} answers, {chains} of them to a chain: {least} ns an answer, with the clock's own time"
    )
}
