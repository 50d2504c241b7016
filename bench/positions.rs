//! Positions in the middle of a game, drawn by chance and the same in each run.

use hx_board::{Colour, Position, Size};
use hx_test_support::Draws;

/// The position after so many stones of Black and White in turn, or after as many as the board has
/// room for.
pub(crate) fn after_stones(draws: &mut Draws, size: Size, stones: u32) -> Position {
    let mut position = Position::empty(size);
    let mut mover = Colour::Black;
    for _ in 0..stones {
        if let Some(cell) = draws.cell(size, position.empties()) {
            position.play(mover, cell);
            mover = mover.other();
        }
    }
    position
}
