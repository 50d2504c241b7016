//! A search of one position by one worker, with counts of its own.

ghost use Rattle.std.specs.Prelude.{◌≡◌, ◌≤◌, ◌^◌, IfOk, IfSome};
ghost use Rattle.std.specs.List.{All};
ghost use Rattle.hx_count.specs.Machine.{held_in_all, HasNothing};
ghost use Rattle.hx_count.specs.Seats.{own};

use hx_board::{Colour, Memory, Position};
use hx_book::Book;
use hx_count::{CountSeat, Counts, Hints};
use hx_io::RealGate;
use hx_linkset::LinkSet;
use hx_ordering::{LOSS_WORDS, Replies};
use hx_worker::{Ended, Job, work};
use hx_zones::Zones;
use std::alloc::Global;
use std::sync::Wait;

/// What a search gives back.
#[derive(Drop)]
pub(crate) struct Done {
    pub(crate) ended: Ended,
    pub(crate) book: Book,
    pub(crate) units: u64,
}

/// Counts with one seat.
fn counted(alloc: Global, budget: u64) -> Result<(Counts, CountSeat), Memory>
    requires { budget ≤ 2 ^ 40 }
    ensures words { IfOk result (λ made. made.0.limits.words ≡ LOSS_WORDS) }
    ensures fit { IfOk result (λ made. made.1.made ≡ made.0) }
    ensures nothing { IfOk result (λ made. held_in_all (own made.1) ≡ 0) }
{
    let (counts, mut seats) = Counts::start(alloc, budget, LOSS_WORDS, 1)?;
    match seats.pop() {
        Some(seat) => Ok((counts, seat)),
        None => Err(Memory),
    }
}

/// Searches until the position is proved or something is spent.
pub(crate) fn search<R: Wait>(
    rt: &R,
    alloc: Global,
    book: Book,
    hints: &Hints,
    zones: &Zones,
    position: &Position,
    to_move: Colour,
    budget: u64,
) -> Result<Done, Memory>
    requires { budget ≤ 2 ^ 40 }
{
    let (counts, seat) = counted(alloc, budget)?;
    let black = LinkSet::new(alloc, position, Colour::Black)?;
    let white = LinkSet::new(alloc, position, Colour::White)?;
    let replies = Replies::new(alloc)?;
    let mut job = Job {
        worker: 0,
        position: *position,
        to_move,
        proofs: book,
        counts: &counts,
        seat,
        hints,
        replies: &replies,
        zones,
        black,
        white,
    };
    let ended = work(rt, &mut job, &RealGate);
    let units = job.seat.granted();
    let Job { proofs, .. } = job;
    Ok(Done {
        ended,
        book: proofs,
        units,
    })
}
