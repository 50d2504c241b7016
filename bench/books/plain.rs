//! How long a HashMap of Rust's std takes to find and to put what the other program puts into a
//! book: the least of some rounds.

use std::collections::HashMap;
use std::hint::black_box;
use std::time::Instant;

const ROUNDS: u32 = 7;

/// The cells of the column in the middle.
const COLUMN: u128 = 0x0008_0100_2004_0080_1002_0040_0801_0020;

#[derive(Clone, Copy, PartialEq, Eq, Hash)]
struct Key {
    black: u128,
    white: u128,
    black_moves: bool,
}

struct Found {
    index: u32,
    _winner: bool,
}

/// As many bytes as a node has.
struct Node {
    _key: Key,
    _rest: [u64; 12],
}

fn spread(number: u32) -> u128 {
    let digits = u128::from(number % 1024);
    digits % 32 + digits / 32 * 64
}

fn list(count: u32, further: u128) -> Vec<Key> {
    (0..count)
        .map(|number| Key {
            black: (spread(number / 2048) << 77) | COLUMN,
            white: (spread(number / 2) << 33) | further,
            black_moves: number % 2 == 0,
        })
        .collect()
}

fn mixed(list: &[Key]) -> Vec<Key> {
    let mut place = 7usize;
    (0..list.len())
        .map(|_| {
            place = place
                .wrapping_mul(6364136223846793005)
                .wrapping_add(1442695040888963407)
                % list.len();
            list[place]
        })
        .collect()
}

fn get_all(map: &HashMap<Key, Found>, keys: &[Key]) -> u64 {
    keys.iter()
        .filter_map(|key| map.get(key))
        .map(|found| u64::from(found.index))
        .sum()
}

fn insert_all(map: &mut HashMap<Key, Found>, nodes: &mut Vec<Node>, keys: &[Key]) {
    for key in keys {
        if !map.contains_key(key) {
            let index = nodes.len() as u32;
            map.insert(
                *key,
                Found {
                    index,
                    _winner: true,
                },
            );
            nodes.push(Node {
                _key: *key,
                _rest: [0; 12],
            });
        }
    }
}

fn measure(count: u32) {
    let puts = list(count, 0);
    let hits = mixed(&puts);
    let misses = mixed(&list(count, 1 << 55));
    let mut least = [u128::MAX; 3];
    let mut sum = 0;
    for _ in 0..ROUNDS {
        let mut map = HashMap::with_capacity(count as usize);
        let mut nodes = Vec::with_capacity(count as usize);
        let start = Instant::now();
        insert_all(&mut map, &mut nodes, &puts);
        least[0] = least[0].min(start.elapsed().as_nanos());
        black_box(&nodes);
        let start = Instant::now();
        sum += get_all(&map, black_box(&hits));
        least[1] = least[1].min(start.elapsed().as_nanos());
        let start = Instant::now();
        sum += get_all(&map, black_box(&misses));
        least[2] = least[2].min(start.elapsed().as_nanos());
    }
    let each = u128::from(count);
    println!(
        "{count} entries: hit {} ns, miss {} ns, put {} ns ({sum})",
        least[1] / each,
        least[2] / each,
        least[0] / each
    );
}

fn main() {
    measure(1048576);
    measure(65536);
}
