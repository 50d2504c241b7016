//! How long the calls of the counts take, in one thread and in four at once.
#![tactic(auto)]

ghost use Rattle.std.specs.Prelude.{◌≡◌, ◌+◌, ◌<◌, IfOk, IfSome};
ghost use Rattle.std.specs.List.{All};

mod clock;

use crate::clock::since;
use hx_count::{CountSeat, Counts, MOST_HELD};
use std::alloc::Global;
use std::thread::Threads;
use std::time::Instant;
use std::{io, thread};

const TURNS: u32 = 10_000_000;

fn spend_many(counts: &Counts, seat: CountSeat) -> CountSeat
    requires { seat.made ≡ counts.now }
    ensures { result.made ≡ counts.now }
{
    let mut seat = seat;
    for _ in 0..TURNS {
        let _ = counts.spend(&mut seat);
    }
    seat
}

fn hold_many(counts: &Counts, seat: CountSeat) -> CountSeat
    requires fit { seat.made ≡ counts.now }
    requires word { 7 < counts.now.limits.words }
    ensures { result.made ≡ counts.now }
{
    let mut seat = seat;
    for _ in 0..TURNS {
        if seat.held() < MOST_HELD {
            counts.hold(&mut seat, 7);
            counts.release(&mut seat, 7);
        }
    }
    seat
}

fn look_many(counts: &Counts, seat: CountSeat) -> CountSeat
    requires fit { seat.made ≡ counts.now }
    requires word { 7 < counts.now.limits.words }
    ensures { result.made ≡ counts.now }
{
    let mut seat = seat;
    let mut sum = 0u64;
    for _ in 0..TURNS {
        sum = sum.wrapping_add(counts.losses(&mut seat, 7));
    }
    if sum == 1 {
        let _ = counts.spend(&mut seat);
    }
    seat
}

/// One seat in one thread.
fn alone(rt: &HostRuntime, counts: &Counts, seat: CountSeat) -> io::Result<CountSeat>
    requires fit { seat.made ≡ counts.now }
    requires word { 7 < counts.now.limits.words }
    ensures { IfOk result (λ s. s.made ≡ counts.now) }
{
    let start = Instant::now(rt)?;
    let seat = spend_many(counts, seat);
    let spends = since(rt, start)?;
    let start = Instant::now(rt)?;
    let seat = hold_many(counts, seat);
    let holds = since(rt, start)?;
    let start = Instant::now(rt)?;
    let seat = look_many(counts, seat);
    let looks = since(rt, start)?;
    println!(rt;
        "one thread: {} ns a spend, {} a hold and a release, {} a look",
        spends / u64::from(TURNS),
        holds / u64::from(TURNS),
        looks / u64::from(TURNS)
    )?;
    Ok(seat)
}

fn start(alloc: Global, seats: u32) -> io::Result<(Counts, Vec<CountSeat>)>
    requires { (0 < seats) × (seats < 9) }
    ensures words { IfOk result (λ made. 7 < made.0.limits.words) }
    ensures fit { IfOk result (λ made. All (λ s. s.made ≡ made.0) made.1.items) }
{
    Counts::start(alloc, 1_000_000_000_000, 4096, seats).map_err(|_| io::Error::from(
        io::ErrorKind::OutOfMemory,
    ))
}

/// Four seats in four threads.
fn together<R: Threads + Sync>(rt: &R, counts: &Counts, seats: Vec<CountSeat>)
    requires { All (λ s. s.made ≡ counts.now) seats.items }
{
    if let Ok(seats) = thread::map_vec(rt, seats, &|seat| spend_many(counts, seat)) {
        drop(seats);
    }
}

fn first(counts: &Counts, seats: Vec<CountSeat>) -> Option<CountSeat>
    requires { All (λ s. s.made ≡ counts.now) seats.items }
    ensures { IfSome result (λ s. s.made ≡ counts.now) }
{
    let _ = counts;
    let mut seats = seats;
    seats.pop()
}

fn main(rt: HostRuntime) -> io::Result<()> {
    let (counts, seats) = start(rt.alloc(), 1)?;
    if let Some(seat) = first(&counts, seats) {
        drop(alone(&rt, &counts, seat)?);
    }
    let (counts, seats) = start(rt.alloc(), 4)?;
    let start = Instant::now(&rt)?;
    together(&rt, &counts, seats);
    let spends = since(&rt, start)?;
    println!(rt;
        "four threads: {} ns a spend of each",
        spends / u64::from(TURNS)
    )
}
