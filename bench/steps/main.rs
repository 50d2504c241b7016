//! How many steps a second `check_node` judges, of a node of 8,000 steps on 11 by 11: the least
//! time of 20 rounds.
#![tactic(auto)]

mod positions;

use crate::positions::after_stones;
use hx_board::{Colour, Groups, Memory, Position, Size, Vertex};
use hx_link::{Kind, Link, Parts, Step, result_of};
use hx_test_support::Draws;
use hx_tree::{Heading, Node, Rule, Steps, check_node};
use smallvec::SmallVec;
use std::alloc::{AllocError, Global};
use std::io;
use std::time::Instant;

const ROUNDS: u32 = 20;

/// What the position comes from.
const SEED: u64 = 2026;

const STEPS: usize = 8000;

const BASES: usize = 1000;

const CELLS: u32 = 4000;

const STONES: u32 = 1500;

/// How many steps there are of each kind.
#[derive(Clone, Copy)]
struct Kinds {
    base: u32,
    stone: u32,
    cell: u32,
    or: u32,
}

const NO_STEP: Kinds = Kinds {
    base: 0,
    stone: 0,
    cell: 0,
    or: 0,
};

/// Steps that are right so far, and their links.
#[derive(Drop)]
struct Growing {
    alloc: Global,
    position: Position,
    steps: Vec<Step>,
    links: Vec<Link>,
    kinds: Kinds,
}

impl Growing {
    /// Adds a step where it gives a link.
    fn add(&mut self, step: Step) -> Result<(), AllocError> {
        if self.steps.len() < STEPS {
            let groups = Groups::of(&self.position, Colour::Black);
            let found = result_of(
                &self.position,
                Colour::Black,
                &groups,
                self.links.as_slice(),
                &step,
            );
            if let Some(link) = found {
                match &step {
                    Step::Base { .. } => self.kinds.base = self.kinds.base.wrapping_add(1),
                    Step::AndStone { .. } => self.kinds.stone = self.kinds.stone.wrapping_add(1),
                    Step::AndCell { .. } => self.kinds.cell = self.kinds.cell.wrapping_add(1),
                    Step::Or { .. } => self.kinds.or = self.kinds.or.wrapping_add(1),
                }
                self.links.push(link)?;
                self.steps.push(step)?;
            }
        }
        Ok(())
    }

    fn add_or(&mut self, left: u32, right: u32) -> Result<(), AllocError> {
        let parts = Parts::new(SmallVec::from_slice(self.alloc, &[left, right])?);
        self.add(Step::Or { parts })
    }
}

fn vertices(alloc: Global, size: Size) -> Result<Vec<Vertex>, AllocError> {
    let mut all = Vec::new(alloc);
    for index in 0..121u8 {
        if let Some(cell) = size.cell(index / 11, index % 11) {
            all.push(Vertex::Of(cell))?;
        }
    }
    all.push(Vertex::First)?;
    all.push(Vertex::Last)?;
    Ok(all)
}

/// Adds the Ands of two links and their Or.
fn add_pair(made: &mut Growing, left: usize, right: usize) -> Result<(), AllocError> {
    let (Some(first), Some(second)) = (
        made.links.get(left).copied(),
        made.links.get(right).copied(),
    ) else {
        return Ok(());
    };
    let (Ok(left), Ok(right)) = (u32::try_from(left), u32::try_from(right)) else {
        return Ok(());
    };
    if first.kind == Kind::Full && second.kind == Kind::Full {
        if made.kinds.stone < STONES {
            made.add(Step::AndStone { left, right })?;
        }
        if made.kinds.cell < CELLS {
            made.add(Step::AndCell { left, right })?;
        }
    } else if first.a == second.a && first.b == second.b {
        made.add_or(left, right)?;
    }
    Ok(())
}

/// Adds the Bases of all pairs of vertices, as many as are wanted.
fn add_bases(made: &mut Growing, all: &[Vertex]) -> Result<(), AllocError> {
    for a in all {
        for b in all {
            let (a, b) = (*a, *b);
            if made.steps.len() < BASES {
                made.add(Step::Base { a, b })?;
            }
        }
    }
    Ok(())
}

/// Bases, and then every And of two links and every Or of two, until there are enough steps.
fn grown(alloc: Global, size: Size) -> Result<Growing, AllocError> {
    let mut made = Growing {
        alloc,
        position: after_stones(&mut Draws::new(SEED), size, 24),
        steps: Vec::new(alloc),
        links: Vec::new(alloc),
        kinds: NO_STEP,
    };
    add_bases(&mut made, vertices(alloc, size)?.as_slice())?;
    for right in 0..STEPS {
        if made.steps.len() == STEPS {
            break;
        }
        for left in 0..right {
            add_pair(&mut made, left, right)?;
        }
    }
    Ok(made)
}

fn main(rt: HostRuntime) -> io::Result<()> {
    let Some(size) = Size::new(11, 11) else {
        return Ok(());
    };
    let made = grown(rt.alloc(), size)?;
    let kinds = made.kinds;
    let count = made.steps.len();
    let heading = Heading {
        position: made.position,
        to_move: Colour::Black,
        winner: Colour::Black,
    };
    let node = Node {
        heading,
        rule: Rule::Links {
            steps: Steps::new(made.steps),
        },
    };
    let mut least = u128::MAX;
    for _ in 0..ROUNDS {
        let start = Instant::now(&rt)?;
        let answer = check_node(rt.alloc(), &[], &node);
        least = least.min(start.elapsed(&rt)?.as_nanos());
        if answer == Err(Memory) {
            return Ok(());
        }
    }
    println!(rt;
        "{count} steps (base {}, stone {}, cell {}, or {}): {} us, {} ns a step",
        kinds.base,
        kinds.stone,
        kinds.cell,
        kinds.or,
        least / 1000,
        least / (count as u128).max(1),
    )
}
