//! What is searched, each with a book, hints and zones of its own.

ghost use Rattle.std.specs.Prelude.{◌≤◌, ◌^◌};

use crate::counting::count_leading;
use crate::searches::{Done, search};
use hx_board::{Colour, Memory, Position, Size};
use hx_book::Book;
use hx_count::Hints;
use hx_worker::Ended;
use hx_zones::Zones;
use std::alloc::Global;
use std::sync::Wait;
use std::time::{Clock, Instant};

/// Words of hints.
const HINTS: u32 = 1048576;

/// Blocks of zones: as many as a search has by default.
const BLOCKS: u32 = 2048;

/// Slots of a book.
const SLOTS: u32 = 1048576;

/// More units than any of the searches takes.
const MANY_UNITS: u64 = 1000000;

/// The positions that are searched.
#[derive(Clone, Copy)]
enum Positions {
    /// The empty board, Black to move.
    Empty,

    /// After Black's move to the cell in this row and column, both counted from 0.
    After { row: u8, col: u8 },

    /// After each of Black's moves, all in one book.
    EachOpening,
}

/// A search.
#[derive(Clone, Copy)]
pub(crate) struct Task {
    pub(crate) name: &'static str,

    /// The rows and the columns of the board.
    side: u8,
    positions: Positions,
    budget: u64,
}

/// All searches.
pub(crate) const TASKS: [Task; 13] = [
    Task {
        name: "empty6",
        side: 6,
        positions: Positions::Empty,
        budget: MANY_UNITS,
    },
    Task {
        name: "empty7",
        side: 7,
        positions: Positions::Empty,
        budget: MANY_UNITS,
    },
    Task {
        name: "e6",
        side: 7,
        positions: Positions::After { row: 5, col: 4 },
        budget: MANY_UNITS,
    },
    Task {
        name: "e6-start",
        side: 7,
        positions: Positions::After { row: 5, col: 4 },
        budget: 1500,
    },
    Task {
        name: "g4",
        side: 7,
        positions: Positions::After { row: 3, col: 6 },
        budget: MANY_UNITS,
    },
    Task {
        name: "a5",
        side: 7,
        positions: Positions::After { row: 4, col: 0 },
        budget: MANY_UNITS,
    },
    Task {
        name: "a6",
        side: 7,
        positions: Positions::After { row: 5, col: 0 },
        budget: MANY_UNITS,
    },
    Task {
        name: "b4",
        side: 7,
        positions: Positions::After { row: 3, col: 1 },
        budget: MANY_UNITS,
    },
    Task {
        name: "openings6",
        side: 6,
        positions: Positions::EachOpening,
        budget: MANY_UNITS,
    },
    Task {
        name: "d5",
        side: 8,
        positions: Positions::After { row: 4, col: 3 },
        budget: MANY_UNITS,
    },
    Task {
        name: "d5-start",
        side: 8,
        positions: Positions::After { row: 4, col: 3 },
        budget: 3000,
    },
    Task {
        name: "empty8",
        side: 8,
        positions: Positions::Empty,
        budget: MANY_UNITS,
    },
    Task {
        name: "empty11",
        side: 11,
        positions: Positions::Empty,
        budget: 1000,
    },
];

/// What the searches of a task came to.
#[derive(Clone, Copy)]
pub(crate) struct Sum {
    pub(crate) units: u64,
    pub(crate) nanoseconds: u64,
    pub(crate) black_wins: u32,
    pub(crate) white_wins: u32,

    /// Nodes in the book, and how many of them lead to one that serves.
    pub(crate) nodes: u32,
    pub(crate) leading: u32,
}

impl Sum {
    fn add(&mut self, done: &Done, nanoseconds: u64) {
        self.units = self.units.wrapping_add(done.units);
        self.nanoseconds = self.nanoseconds.wrapping_add(nanoseconds);
        match done.ended {
            Ended::Proved {
                winner: Colour::Black,
                ..
            } => self.black_wins = self.black_wins.wrapping_add(1),
            Ended::Proved {
                winner: Colour::White,
                ..
            } => self.white_wins = self.white_wins.wrapping_add(1),
            _ => {}
        }
    }
}

/// The position after Black's move to an empty cell.
fn after(position: &Position, row: u8, col: u8) -> Option<Position> {
    let cell = position.size().cell(row, col)?;
    if !position.empties().has(cell) {
        return None;
    }
    Some(position.with(Colour::Black, cell))
}

/// Searches one position, and gives the book on.
fn timed<R: Wait + Clock>(
    rt: &R,
    alloc: Global,
    book: Book,
    hints: &Hints,
    zones: &Zones,
    position: &Position,
    to_move: Colour,
    budget: u64,
    sum: &mut Sum,
) -> Result<Book, Memory>
    requires { budget ≤ 2 ^ 40 }
{
    let start = Instant::now(rt).map_err(|_| Memory)?;
    let done = search(rt, alloc, book, hints, zones, position, to_move, budget)?;
    let time = start.elapsed(rt).map_err(|_| Memory)?.as_nanos();
    sum.add(&done, u64::try_from(time).unwrap_or(u64::MAX));
    let Done { book, .. } = done;
    Ok(book)
}

fn search_openings<R: Wait + Clock>(
    rt: &R,
    alloc: Global,
    book: Book,
    hints: &Hints,
    zones: &Zones,
    empty: &Position,
    sum: &mut Sum,
) -> Result<Book, Memory> {
    let size = empty.size();
    let mut book = book;
    for row in 0..size.rows() {
        for col in 0..size.cols() {
            if let Some(position) = after(empty, row, col) {
                book = timed(
                    rt,
                    alloc,
                    book,
                    hints,
                    zones,
                    &position,
                    Colour::White,
                    MANY_UNITS,
                    sum,
                )?;
            }
        }
    }
    Ok(book)
}

/// The searches of a task.
pub(crate) fn run<R: Wait + Clock>(rt: &R, alloc: Global, task: &Task) -> Result<Sum, Memory> {
    let mut sum = Sum {
        units: 0,
        nanoseconds: 0,
        black_wins: 0,
        white_wins: 0,
        nodes: 0,
        leading: 0,
    };
    let Some(size) = Size::new(task.side, task.side) else {
        return Ok(sum);
    };
    let budget = task.budget.min(MANY_UNITS);
    let hints = Hints::with_words(alloc, HINTS)?;
    let zones = Zones::with_blocks(alloc, BLOCKS)?;
    let book = Book::with_slots(alloc, SLOTS)?;
    let empty = Position::empty(size);
    let book = match task.positions {
        Positions::Empty => timed(
            rt,
            alloc,
            book,
            &hints,
            &zones,
            &empty,
            Colour::Black,
            budget,
            &mut sum,
        )?,
        Positions::After { row, col } => match after(&empty, row, col) {
            Some(position) => timed(
                rt,
                alloc,
                book,
                &hints,
                &zones,
                &position,
                Colour::White,
                budget,
                &mut sum,
            )?,
            None => book,
        },
        Positions::EachOpening => {
            search_openings(rt, alloc, book, &hints, &zones, &empty, &mut sum)?
        }
    };
    sum.nodes = book.held();
    let entries = book.into_entries();
    sum.leading = count_leading(entries.as_slice());
    Ok(sum)
}
