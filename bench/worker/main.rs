//! Searches by one worker: how strong it is, by its units, and how fast, by the time of a unit.
#![tactic(auto)]

mod counting;
mod searches;
mod tasks;

use crate::tasks::{Sum, TASKS, Task, run};
use std::env::{Env, FillError};
use std::io;

/// No name of a task is longer, in bytes.
const LONGEST_NAME: usize = 16;

/// Prints what the searches of a task came to.
fn print(rt: &HostRuntime, task: &Task, sum: &Sum) -> io::Result<()> {
    let a_unit = sum.nanoseconds / sum.units.max(1);
    println!(rt;
        "{}: Black wins {}, White {}; {} units, {} ms, {}.{} us a unit; {} nodes, of which {} lead to one that serves",
        task.name,
        sum.black_wins,
        sum.white_wins,
        sum.units,
        sum.nanoseconds / 1000000,
        a_unit / 1000,
        a_unit % 1000 / 100,
        sum.nodes,
        sum.leading
    )
}

/// Whether the words name a task, or there are none.
fn is_named(rt: &HostRuntime, name: &str) -> bool {
    let mut buffer = [0u8; LONGEST_NAME];
    for place in 1..1000usize {
        match rt.arg(place, &mut buffer) {
            Ok(count) => {
                if buffer.get(..count).unwrap_or(&[]) == name.as_bytes() {
                    return true;
                }
            }
            Err(FillError::NotPresent) => return place == 1,
            Err(FillError::TooLong) => {}
        }
    }
    false
}

/// Searches what the words name, or all.
fn main(rt: HostRuntime) -> io::Result<()> {
    for task in &TASKS {
        if !is_named(&rt, task.name) {
            continue;
        }
        match run(&rt, rt.alloc(), task) {
            Ok(sum) => print(&rt, task, &sum)?,
            Err(_) => println!(rt; "{}: out of memory", task.name)?,
        }
    }
    Ok(())
}
