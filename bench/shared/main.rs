//! How many stores and looks a second threads make together in one shared book, and in a book behind a mutex of std's.
#![tactic(auto)]

ghost use Rattle.std.specs.Prelude.{◌≡◌, IfOk, IfSome};
ghost use Rattle.std.specs.List.{All};
ghost use Rattle.hx_board.specs.declared.colours.Colour.TheVariants.{Black};
ghost use Rattle.hx_tree.specs.declared.nodes.Rule.TheVariants.{Chain};

mod clock;

use crate::clock::since;
use hx_board::{Colour, Mask, Position, Size, chain};
use hx_book::Book;
use hx_packed::Offer;
use hx_share::{BookSeat, Shared};
use hx_tree::{Heading, Node, Rule};
use std::alloc::{AllocError, Global};
use std::sync::atomic::AtomicU64;
use std::sync::atomic::Ordering::SeqCst;
use std::sync::{Mutex, Wait};
use std::thread::Threads;
use std::time::Instant;
use std::{io, thread};

/// How many positions are stored, and looked for.
const POSITIONS: u32 = 131072;

/// The cells of the column in the middle.
const COLUMN: u128 = 0x0008_0100_2004_0080_1002_0040_0801_0020;

/// A position, in which Black has a chain, and who is to move.
#[derive(Clone, Copy)]
struct Asked {
    position: Position,
    to_move: Colour,
}

impl Asked {
    fn offer(&self) -> Offer
        ensures { result ≡ record {
          heading = record {
            position = self.now.position;
            to_move = self.now.to_move;
            winner = Black;
          };
          rule = Chain;
        } }
    {
        let heading = Heading {
            position: self.position,
            to_move: self.to_move,
            winner: Colour::Black,
        };
        let rule = Rule::Chain;
        match Offer::of(Node { heading, rule }) {
            Ok(offer) => offer,
            Err(_) => unreachable!(),
        }
    }
}

/// The ten lowest binary digits, as cells of the first row beside the column.
fn spread(number: u32) -> u128 {
    let digits = (number % 1024) as u128;
    digits % 32 + digits / 32 * 64
}

/// Which stones stand beside the column is told by a number's digits, ten for White and ten for Black, after one for the mover.
fn drawn(size: Size, number: u32) -> Option<Asked> {
    let white = spread(number / 2) << 33;
    let black = (spread(number / 2048) << 77) | COLUMN;
    let position = Position::from_masks(size, Mask::of(black), Mask::of(white))?;
    let to_move = if number % 2 == 0 {
        Colour::Black
    } else {
        Colour::White
    };
    Some(Asked { position, to_move })
}

fn list(alloc: Global) -> Result<Vec<Asked>, AllocError> {
    let mut list = Vec::with_capacity(alloc, POSITIONS as usize)?;
    let Some(size) = Size::new(11, 11) else {
        return Ok(list);
    };
    for number in 0..POSITIONS {
        if let Some(one) = drawn(size, number) {
            list.push(one)?;
        }
    }
    Ok(list)
}

/// A part of the list.
#[derive(Clone, Copy)]
struct Part {
    from: u64,
    to: u64,
}

/// The list, how many threads share it, and how many parts of it were taken.
#[derive(Drop)]
struct Work {
    list: Vec<Asked>,
    threads: AtomicU64,
    next: AtomicU64,
}

impl Work {
    /// The next thread's part.
    fn part(&self) -> Part {
        let threads = self.threads.load(SeqCst).max(1);
        let each = u64::from(POSITIONS) / threads;
        let number = self.next.fetch_add(1, SeqCst) % threads;
        let from = number.wrapping_mul(each);
        let to = from.wrapping_add(each);
        Part { from, to }
    }
}

fn store_one<R: Wait>(rt: &R, shared: &Shared, seat: &mut BookSeat, one: &Asked) -> u64
    requires { seat.old.made ≡ shared.now.made }
    ensures { seat.new.made ≡ seat.old.made }
{
    let _size = one.position.size();
    if chain(&one.position, Colour::Black) {
        if let Ok(index) = shared.store(rt, seat, one.offer()) {
            return u64::from(index);
        }
    }
    0
}

fn store_part<R: Wait>(
    rt: &R,
    shared: &Shared,
    work: &Work,
    seat: BookSeat,
) -> BookSeat
    requires { seat.made ≡ shared.now.made }
    ensures { result.made ≡ shared.now.made }
{
    let part = work.part();
    let mut seat = seat;
    for k in part.from..part.to {
        if let Some(one) = work.list.get(k as usize) {
            let _ = store_one(rt, shared, &mut seat, one);
        }
    }
    seat
}

fn look_part<R: Wait>(
    rt: &R,
    shared: &Shared,
    work: &Work,
    seat: BookSeat,
) -> BookSeat
    requires { seat.made ≡ shared.now.made }
    ensures { result.made ≡ shared.now.made }
{
    let part = work.part();
    let mut seat = seat;
    for k in part.from..part.to {
        if let Some(one) = work.list.get(k as usize) {
            let _ = shared.look(rt, &mut seat, &one.position, one.to_move);
        }
    }
    seat
}

/// A shared book, and a seat for each thread.
fn start(alloc: Global, threads: u32) -> io::Result<(Shared, Vec<BookSeat>)>
    ensures { IfOk result (λ made. All (λ s. s.made ≡ made.0.made) made.1.items) }
{
    if threads == 0 || threads > 64 {
        return Err(io::Error::from(io::ErrorKind::InvalidInput));
    }
    match Shared::start(alloc, POSITIONS, threads) {
        Ok(made) => Ok(made),
        Err(_) => Err(io::Error::from(io::ErrorKind::OutOfMemory)),
    }
}

/// Each thread stores its part.
fn store_all<R: Threads + Wait + Sync>(
    rt: &R,
    shared: &Shared,
    work: &Work,
    seats: Vec<BookSeat>,
) -> Option<Vec<BookSeat>>
    requires { All (λ s. s.made ≡ shared.now.made) seats.items }
    ensures { IfSome result (λ v. All (λ s. s.made ≡ shared.now.made) v.items) }
{
    thread::map_vec(rt, seats, &|seat| store_part(rt, shared, work, seat)).ok()
}

/// Each thread looks for its part.
fn look_all<R: Threads + Wait + Sync>(
    rt: &R,
    shared: &Shared,
    work: &Work,
    seats: Vec<BookSeat>,
) -> Option<Vec<BookSeat>>
    requires { All (λ s. s.made ≡ shared.now.made) seats.items }
    ensures { IfSome result (λ v. All (λ s. s.made ≡ shared.now.made) v.items) }
{
    thread::map_vec(rt, seats, &|seat| look_part(rt, shared, work, seat)).ok()
}

fn put_one(book: &mut Book, one: &Asked) -> u64 {
    let _size = one.position.size();
    if chain(&one.position, Colour::Black) {
        if let Ok(index) = book.put(one.offer()) {
            return u64::from(index);
        }
    }
    0
}

fn put_part<R: Wait>(rt: &R, book: &Mutex<Book>, work: &Work) -> u64 {
    let part = work.part();
    let mut sum = 0u64;
    for k in part.from..part.to {
        if let Some(one) = work.list.get(k as usize) {
            sum = sum.wrapping_add(put_one(&mut book.lock(rt), one));
        }
    }
    sum
}

fn find_part<R: Wait>(rt: &R, book: &Mutex<Book>, work: &Work) -> u64 {
    let part = work.part();
    let mut sum = 0u64;
    for k in part.from..part.to {
        if let Some(one) = work.list.get(k as usize) {
            let found = book.lock(rt).find(&one.position, one.to_move);
            sum = sum.wrapping_add(u64::from(found.is_some()));
        }
    }
    sum
}

/// Each thread puts its part into the book behind the mutex.
fn put_all<R: Threads + Wait + Sync>(
    rt: &R,
    book: &Mutex<Book>,
    work: &Work,
    threads: Vec<u32>,
) -> Option<Vec<u64>> {
    thread::map_vec(rt, threads, &|_| put_part(rt, book, work)).ok()
}

/// Each thread looks for its part in the book behind the mutex.
fn find_all<R: Threads + Wait + Sync>(
    rt: &R,
    book: &Mutex<Book>,
    work: &Work,
    threads: Vec<u32>,
) -> Option<Vec<u64>> {
    thread::map_vec(rt, threads, &|_| find_part(rt, book, work)).ok()
}

/// One number for each thread.
fn numbers(alloc: Global, threads: u32) -> Result<Vec<u32>, AllocError> {
    let mut numbers = Vec::with_capacity(alloc, threads as usize)?;
    for number in 0..threads {
        numbers.push(number)?;
    }
    Ok(numbers)
}

/// How many a second, of so many in these nanoseconds.
fn a_second(count: u32, nanos: u64) -> u64 {
    let product = u128::from(count).wrapping_mul(1_000_000_000);
    u64::try_from(product / u128::from(nanos.max(1))).unwrap_or(u64::MAX)
}

fn print(rt: &HostRuntime, name: &str, threads: u32, stores: u64, looks: u64) -> io::Result<()> {
    println!(rt;
        "{name}, {threads} threads: {} stores and {} looks a second",
        a_second(POSITIONS, stores),
        a_second(POSITIONS, looks)
    )
}

fn main(rt: HostRuntime) -> io::Result<()> {
    let work = Work {
        list: list(rt.alloc())?,
        threads: AtomicU64::new(1),
        next: AtomicU64::new(0),
    };
    for power in 0..4u32 {
        let threads = 1 << power;
        work.threads.store(u64::from(threads), SeqCst);
        let (shared, seats) = start(rt.alloc(), threads)?;
        let begun = Instant::now(&rt)?;
        let Some(seats) = store_all(&rt, &shared, &work, seats) else {
            return Ok(());
        };
        let stores = since(&rt, begun)?;
        let begun = Instant::now(&rt)?;
        drop(look_all(&rt, &shared, &work, seats));
        let looks = since(&rt, begun)?;
        print(&rt, "shared book", threads, stores, looks)?;
        let Ok(book) = Book::with_slots(rt.alloc(), POSITIONS) else {
            return Ok(());
        };
        let book = Mutex::new(book);
        let all = numbers(rt.alloc(), threads)?;
        let begun = Instant::now(&rt)?;
        drop(put_all(&rt, &book, &work, all));
        let stores = since(&rt, begun)?;
        let all = numbers(rt.alloc(), threads)?;
        let begun = Instant::now(&rt)?;
        drop(find_all(&rt, &book, &work, all));
        let looks = since(&rt, begun)?;
        print(&rt, "mutex", threads, stores, looks)?;
    }
    Ok(())
}
