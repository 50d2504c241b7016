//! Which nodes of a book are no proofs of their own: those that lead from a position, by stones of the opponent's, to one that serves it.

use hx_packed::Entry;

/// Whether a node leads to one with the same mover and the same stones of the winner, and more of the opponent's.
fn is_leading(entries: &[Entry], entry: &Entry) -> bool {
    let Some(child) = entry.child() else {
        return false;
    };
    let Some(child) = entries.get(child as usize) else {
        return false;
    };
    let here = entry.heading();
    let there = child.heading();
    let stones = here.position.stones(here.winner.other());
    let more = there.position.stones(here.winner.other());
    here.to_move == there.to_move
        && here.position.stones(here.winner) == there.position.stones(here.winner)
        && stones.inside(more)
        && stones != more
}

/// How many of a book's nodes lead to one that serves.
pub(crate) fn count_leading(entries: &[Entry]) -> u32 {
    let mut count = 0u32;
    for entry in entries {
        if is_leading(entries, entry) {
            count = count.wrapping_add(1);
        }
    }
    count
}
