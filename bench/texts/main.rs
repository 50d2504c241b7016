//! How long a tree's text on standard input takes to be cut into lines, read and written: the least
//! of 20 rounds.
#![tactic(auto)]

use hx_io::{MemorySink, Sink};
use hx_lex::cut;
use hx_parse::{Fed, TreeReader};
use hx_text::{version_of, write_end, write_heading, write_node};
use hx_tree::{Node, Rule};
use std::alloc::{AllocError, Global};
use std::io;
use std::io::Read;
use std::time::Instant;

const ROUNDS: u32 = 20;

/// The most bytes of a text.
const ROOM: usize = 33_554_432;

fn lines(text: &[u8]) -> u64 {
    let mut count = 0u64;
    let mut rest = text;
    for _ in 0..text.len() {
        let Some((_, later)) = cut(rest, b'\n') else {
            break;
        };
        count = count.saturating_add(1);
        rest = later;
    }
    count
}

/// How many nodes are read. They are let go, as by a checker, or kept.
fn read(alloc: Global, text: &[u8], kept: &mut Vec<Node>, keep: bool) -> Result<u64, AllocError> {
    let mut reader = TreeReader::new(alloc);
    let mut count = 0u64;
    let mut rest = text;
    for _ in 0..text.len() {
        let Some((line, later)) = cut(rest, b'\n') else {
            break;
        };
        if let Ok(Fed::Node(node)) = reader.feed(line, true) {
            count = count.saturating_add(1);
            if keep {
                kept.push(node)?;
            }
        }
        rest = later;
    }
    Ok(count)
}

/// Whether the node may be written, and was.
fn is_written<K: Sink>(sink: &mut K, node: &Node) -> bool {
    match &node.rule {
        Rule::All {
            steps,
            threats,
            lines,
        } => {
            steps.items().len() <= 8192
                && threats.items().len() <= 128
                && lines.items().len() <= 121
                && write_node(sink, node).is_ok()
        }
        Rule::Links { .. } | Rule::Fill { .. } => false,
        _ => write_node(sink, node).is_ok(),
    }
}

fn write<K: Sink>(sink: &mut K, nodes: &[Node]) {
    if let (Some(root), Ok(count)) = (nodes.last(), u32::try_from(nodes.len())) {
        let _ = write_heading(sink, version_of(nodes), root.heading.position.size());
        for node in nodes {
            let _ = is_written(sink, node);
        }
        let _ = write_end(sink, count, root.heading.winner);
    }
}

fn main(rt: HostRuntime) -> io::Result<()> {
    let alloc = rt.alloc();
    let mut text = Vec::new(alloc);
    rt.stdin().read_to_end(&mut text)?;
    let mut nodes = Vec::new(alloc);
    read(alloc, &text, &mut nodes, true)?;
    let mut none = Vec::new(alloc);
    let mut least = [u128::MAX; 3];
    let mut found = 0u64;
    let mut same = false;
    for _ in 0..ROUNDS {
        let start = Instant::now(&rt)?;
        found = found.wrapping_add(lines(&text));
        least[0] = least[0].min(start.elapsed(&rt)?.as_nanos());
        let start = Instant::now(&rt)?;
        found = found.wrapping_add(read(alloc, &text, &mut none, false)?);
        least[1] = least[1].min(start.elapsed(&rt)?.as_nanos());
        if let Ok(mut sink) = MemorySink::new(alloc, ROOM, usize::MAX, Vec::new(alloc)) {
            let start = Instant::now(&rt)?;
            write(&mut sink, &nodes);
            least[2] = least[2].min(start.elapsed(&rt)?.as_nanos());
            same = sink.bytes() == text.as_slice();
        }
    }
    println!(rt;
        "{} bytes, written the same: {same} ({found}); cut into lines {} us, read {} us, written {} us",
        text.len(),
        least[0] / 1000,
        least[1] / 1000,
        least[2] / 1000,
    )
}
