//! How long `find` and `put` of a book take, beside a HashMap of std's: the least of some rounds.
//! How long `look_either` takes. How many entries a find visits. How long `find_wider` takes on a book of entries that all have
//! other stones of the winner.
#![tactic(auto)]

ghost use Rattle.std.specs.Prelude.{◌≡◌};
ghost use Rattle.hx_board.specs.declared.colours.Colour.TheVariants.{Black};
ghost use Rattle.hx_tree.specs.declared.nodes.Rule.TheVariants.{Chain};

mod clock;

use crate::clock::since;
use hx_board::{Colour, Mask, Position, Size, chain};
use hx_book::{Book, Found, look_either};
use hx_packed::{Entry, Offer};
use hx_tree::{Heading, Node, Rule};
use hx_turn::turned;
use std::alloc::{AllocError, Global};
use std::collections::HashMap;
use std::io;
use std::mem::size_of;
use std::sync::Wait;
use std::time::{Clock, Instant};

const ROUNDS: u32 = 7;

/// The cells of the column in the middle.
const COLUMN: u128 = 0x0008_0100_2004_0080_1002_0040_0801_0020;

/// 2^64.
const HALF: u128 = 18446744073709551616;

/// A position, in which Black has a chain, and who is to move.
#[derive(Clone, Copy)]
struct Asked {
    position: Position,
    to_move: Colour,
}

/// The same for a HashMap.
#[derive(Clone, Copy, PartialEq, Eq, Hash)]
struct Key {
    black: u128,
    white: u128,
    black_moves: bool,
}

impl Asked {
    fn key(&self) -> Key {
        Key {
            black: self.position.stones(Colour::Black).bits(),
            white: self.position.stones(Colour::White).bits(),
            black_moves: self.to_move == Colour::Black,
        }
    }

    fn offer(&self) -> Offer
        ensures { result ≡ record {
          heading = record {
            position = self.now.position;
            to_move = self.now.to_move;
            winner = Black;
          };
          rule = Chain;
        } }
    {
        let heading = Heading {
            position: self.position,
            to_move: self.to_move,
            winner: Colour::Black,
        };
        let rule = Rule::Chain;
        match Offer::of(Node { heading, rule }) {
            Ok(offer) => offer,
            Err(_) => unreachable!(),
        }
    }
}

/// The ten lowest binary digits, as cells of the first row beside the column.
fn spread(number: u32) -> u128 {
    let digits = (number % 1024) as u128;
    digits % 32 + digits / 32 * 64
}

/// Which stones stand beside the column is told by a number's digits, ten for White and ten for
/// Black, after one for the mover. A further stone stands on none of these cells.
fn drawn(size: Size, number: u32, further: u128) -> Option<Asked> {
    let white = (spread(number / 2) << 33) | further;
    let black = (spread(number / 2048) << 77) | COLUMN;
    let position = Position::from_masks(size, Mask::of(black), Mask::of(white))?;
    let to_move = if number % 2 == 0 {
        Colour::Black
    } else {
        Colour::White
    };
    Some(Asked { position, to_move })
}

/// Twenty digits tell Black's stones beside the column, and White has one stone at the most.
fn drawn_wide(size: Size, number: u32, whites: u128) -> Option<Asked> {
    let black = (spread(number / 2) << 33) | (spread(number / 2048) << 77) | COLUMN;
    let position = Position::from_masks(size, Mask::of(black), Mask::of(whites))?;
    let to_move = if number % 2 == 0 {
        Colour::Black
    } else {
        Colour::White
    };
    Some(Asked { position, to_move })
}

/// So many of those, all different.
fn list_wide(
    alloc: Global,
    size: Size,
    count: u32,
    whites: u128,
) -> Result<Vec<Asked>, AllocError> {
    let mut list = Vec::with_capacity(alloc, count as usize)?;
    for number in 0..count {
        if let Some(one) = drawn_wide(size, number, whites) {
            list.push(one)?;
        }
    }
    Ok(list)
}

/// So many of them, all different.
fn list(alloc: Global, size: Size, count: u32, further: u128) -> Result<Vec<Asked>, AllocError> {
    let mut list = Vec::with_capacity(alloc, count as usize)?;
    for number in 0..count {
        if let Some(one) = drawn(size, number, further) {
            list.push(one)?;
        }
    }
    Ok(list)
}

/// The same in an order that is as good as random, where their number is a power of two.
fn mixed(alloc: Global, list: &[Asked]) -> Result<Vec<Asked>, AllocError> {
    let mut mixed = Vec::with_capacity(alloc, list.len())?;
    let mut place = 7usize;
    for _ in 0..list.len() {
        place = place
            .wrapping_mul(6364136223846793005)
            .wrapping_add(1442695040888963407)
            % list.len().max(1);
        if let Some(one) = list.get(place) {
            mixed.push(*one)?;
        }
    }
    Ok(mixed)
}

fn keys(alloc: Global, list: &[Asked]) -> Result<Vec<Key>, AllocError> {
    let mut keys = Vec::with_capacity(alloc, list.len())?;
    for one in list {
        keys.push(one.key())?;
    }
    Ok(keys)
}

fn fold(a: u64, b: u64) -> u64 {
    let product = u128::from(a).wrapping_mul(u128::from(b));
    (product / HALF) as u64 ^ (product % HALF) as u64
}

fn fold_set(set: Mask, low_key: u64, high_key: u64) -> u64 {
    let bits = set.bits();
    fold(
        (bits % HALF) as u64 ^ low_key,
        (bits / HALF) as u64 ^ high_key,
    )
}

/// The folded number of hx_turn, once more.
fn number(one: &Asked) -> u64 {
    let black = fold_set(
        one.position.stones(Colour::Black),
        11400714819323198485,
        14029467366897019727,
    );
    let white = fold_set(
        one.position.stones(Colour::White),
        1609587929392839161,
        9650029242287828579,
    );
    let key = match one.to_move {
        Colour::Black => 13287129219935123339,
        Colour::White => 5871781006564002453,
    };
    fold(black ^ key, white ^ 2870177450012600261)
}

/// The bucket of hx_book, once more.
fn bucket(one: &Asked, buckets: u32) -> usize {
    (u128::from(number(one)).wrapping_mul(u128::from(buckets)) / HALF) as usize
}

/// How many entries the finds of all hits and of all misses visit. The newest entry of a bucket is
/// found at once, the next one at the second visit, and a miss goes through the whole bucket.
fn visits(
    alloc: Global,
    hits: &[Asked],
    misses: &[Asked],
    buckets: u32,
) -> Result<(u64, u64), AllocError> {
    let mut held = vec![in alloc; 0u64; buckets as usize]?;
    let mut hit_visits = 0u64;
    for one in hits {
        let bucket = bucket(one, buckets);
        if let Some(count) = held.get_mut(bucket) {
            *count = count.wrapping_add(1);
            hit_visits = hit_visits.wrapping_add(*count);
        }
    }
    let mut miss_visits = 0u64;
    for one in misses {
        let bucket = bucket(one, buckets);
        if let Some(count) = held.get(bucket) {
            miss_visits = miss_visits.wrapping_add(*count);
        }
    }
    Ok((hit_visits, miss_visits))
}

/// The looks for a chain that `put_all` makes, alone.
fn look_at_all(list: &[Asked]) -> u64 {
    let mut found = 0u64;
    for one in list {
        found = found.wrapping_add(u64::from(chain(&one.position, Colour::Black)));
    }
    found
}

/// Puts a node in, after a look for the chain, without which it may not be put in.
fn put(book: &mut Book, one: &Asked) -> u64 {
    let _size = one.position.size();
    if chain(&one.position, Colour::Black) {
        if let Ok(index) = book.put(one.offer()) {
            return u64::from(index);
        }
    }
    0
}

fn put_all(book: &mut Book, list: &[Asked]) -> u64 {
    let mut sum = 0u64;
    for one in list {
        sum = sum.wrapping_add(put(book, one));
    }
    sum
}

fn find_all(book: &Book, list: &[Asked]) -> u64 {
    let mut sum = 0u64;
    for one in list {
        if let Some(found) = book.find(&one.position, one.to_move) {
            sum = sum.wrapping_add(u64::from(found.index));
        }
    }
    sum
}

fn find_all_wider(book: &Book, list: &[Asked]) -> u64 {
    let mut sum = 0u64;
    for one in list {
        if let Some(wider) = book.find_wider(&one.position, one.to_move, Colour::Black) {
            sum = sum.wrapping_add(u64::from(wider.found.index));
        }
    }
    sum
}

/// Adds an entry to the list for each of them that the map does not have yet.
fn insert_all(
    map: &mut HashMap<Key, Found>,
    entries: &mut Vec<Entry>,
    list: &[Asked],
) -> Result<u64, AllocError> {
    let mut sum = 0u64;
    for one in list {
        let entry = one.offer().into_entry();
        let key = one.key();
        if map.get(&key).is_none() {
            let index = u32::try_from(entries.len()).or(Err(AllocError))?;
            let winner = entry.heading().winner;
            if map.insert(key, Found { index, winner }).is_err() {
                return Err(AllocError);
            }
            entries.push(entry)?;
            sum = sum.wrapping_add(u64::from(index));
        }
    }
    Ok(sum)
}

fn get_all(map: &HashMap<Key, Found>, keys: &[Key]) -> u64 {
    let mut sum = 0u64;
    for key in keys {
        if let Some(found) = map.get(key) {
            sum = sum.wrapping_add(u64::from(found.index));
        }
    }
    sum
}

/// The least nanoseconds of each kind of call, and the sum of all answers, which is the same for
/// the book and the map.
#[derive(Clone, Copy)]
struct Least {
    look: u64,
    put: u64,
    hit: u64,
    miss: u64,
    map_put: u64,
    map_hit: u64,
    map_miss: u64,
    sum: u64,
    map_sum: u64,
}

const NOTHING_YET: Least = Least {
    look: u64::MAX,
    put: u64::MAX,
    hit: u64::MAX,
    miss: u64::MAX,
    map_put: u64::MAX,
    map_hit: u64::MAX,
    map_miss: u64::MAX,
    sum: 0,
    map_sum: 0,
};

impl Least {
    fn print(&self, rt: &HostRuntime, each: u64) -> io::Result<()> {
        let each = each.max(1);
        println!(rt;
            "  book: hit {} ns, miss {} ns, put {} ns with the look for a chain",
            self.hit / each,
            self.miss / each,
            self.put / each
        )?;
        println!(rt; "  look for a chain alone: {} ns", self.look / each)?;
        println!(rt;
            "  map: hit {} ns, miss {} ns, put {} ns; the same answers: {}",
            self.map_hit / each,
            self.map_miss / each,
            self.map_put / each,
            self.sum == self.map_sum
        )
    }
}

/// What is asked: the positions in the order in which they come, in another one, and others that do
/// not come.
#[derive(Drop)]
struct Lists {
    puts: Vec<Asked>,
    hits: Vec<Asked>,
    misses: Vec<Asked>,
    hit_keys: Vec<Key>,
    miss_keys: Vec<Key>,
}

fn all_lists(alloc: Global, size: Size, count: u32) -> Result<Lists, AllocError> {
    let puts = list(alloc, size, count, 0)?;
    let hits = mixed(alloc, &puts)?;
    let misses = mixed(alloc, &list(alloc, size, count, 1 << 55)?)?;
    let hit_keys = keys(alloc, &hits)?;
    let miss_keys = keys(alloc, &misses)?;
    Ok(Lists {
        puts,
        hits,
        misses,
        hit_keys,
        miss_keys,
    })
}

fn book_round(
    rt: &HostRuntime,
    least: &mut Least,
    lists: &Lists,
    slots: u32,
    buckets: u32,
) -> io::Result<()> {
    if slots > 1048576 || buckets == 0 || buckets > 2097152 {
        return Ok(());
    }
    let Ok(mut book) = Book::with_buckets(rt.alloc(), slots, buckets) else {
        return Ok(());
    };
    let start = Instant::now(rt)?;
    let chains = look_at_all(&lists.puts);
    least.look = least.look.min(since(rt, start)?);
    let start = Instant::now(rt)?;
    let mut sum = put_all(&mut book, &lists.puts);
    least.put = least.put.min(since(rt, start)?);
    let start = Instant::now(rt)?;
    sum = sum.wrapping_add(find_all(&book, &lists.hits));
    least.hit = least.hit.min(since(rt, start)?);
    let start = Instant::now(rt)?;
    sum = sum.wrapping_add(find_all(&book, &lists.misses));
    least.miss = least.miss.min(since(rt, start)?);
    least.sum = sum.wrapping_add(chains);
    Ok(())
}

fn map_round(rt: &HostRuntime, least: &mut Least, lists: &Lists) -> io::Result<()> {
    let mut map = HashMap::with_capacity(rt.alloc(), lists.puts.len())?;
    let mut entries = Vec::with_capacity(rt.alloc(), lists.puts.len())?;
    let start = Instant::now(rt)?;
    let mut sum = insert_all(&mut map, &mut entries, &lists.puts)?;
    least.map_put = least.map_put.min(since(rt, start)?);
    let start = Instant::now(rt)?;
    sum = sum.wrapping_add(get_all(&map, &lists.hit_keys));
    least.map_hit = least.map_hit.min(since(rt, start)?);
    let start = Instant::now(rt)?;
    sum = sum.wrapping_add(get_all(&map, &lists.miss_keys));
    least.map_miss = least.map_miss.min(since(rt, start)?);
    least.map_sum = sum.wrapping_add(lists.puts.len() as u64);
    Ok(())
}

fn measure(rt: &HostRuntime, size: Size, count: u32, buckets: u32) -> io::Result<()> {
    let lists = all_lists(rt.alloc(), size, count)?;
    let (hit_visits, miss_visits) = visits(rt.alloc(), &lists.puts, &lists.misses, buckets)?;
    println!(rt;
        "{count} entries, {buckets} buckets: visits of all hits {hit_visits}, of all misses {miss_visits}"
    )?;
    let mut least = NOTHING_YET;
    for _ in 0..ROUNDS {
        book_round(rt, &mut least, &lists, count, buckets)?;
        map_round(rt, &mut least, &lists)?;
    }
    least.print(rt, u64::from(count))
}

/// The same positions turned, of which none is in the book.
fn each_turned(alloc: Global, list: &[Asked]) -> Result<Vec<Asked>, AllocError> {
    let mut each = Vec::with_capacity(alloc, list.len())?;
    for one in list {
        let position = turned(&one.position);
        let to_move = one.to_move;
        each.push(Asked { position, to_move })?;
    }
    Ok(each)
}

/// Looks each position up, and where it has no entry the turned one. The nanoseconds, and the sum of what was found.
fn look_at_either<R: Wait + Clock>(
    rt: &R,
    book: &mut Book,
    list: &[Asked],
) -> io::Result<(u64, u64)> {
    let start = Instant::now(rt)?;
    let mut sum = 0u64;
    for one in list {
        if let Some(either) = look_either(rt, book, &one.position, one.to_move) {
            sum = sum.wrapping_add(u64::from(either.found.index));
        }
    }
    Ok((since(rt, start)?, sum))
}

/// The least nanoseconds of looks by `look_either`.
#[derive(Clone, Copy)]
struct EitherTimes {
    hit: u64,
    turned_hit: u64,
    miss: u64,
    sum: u64,
}

fn time_either<R: Wait + Clock>(
    rt: &R,
    alloc: Global,
    size: Size,
    count: u32,
) -> io::Result<EitherTimes> {
    let mut least = EitherTimes {
        hit: u64::MAX,
        turned_hit: u64::MAX,
        miss: u64::MAX,
        sum: 0,
    };
    if count > 1048576 || count == 0 {
        return Ok(least);
    }
    let puts = list(alloc, size, count, 0)?;
    let hits = mixed(alloc, &puts)?;
    let turned_hits = each_turned(alloc, &hits)?;
    let misses = mixed(alloc, &list(alloc, size, count, 1 << 55)?)?;
    let Ok(mut book) = Book::with_buckets(alloc, count, count) else {
        return Ok(least);
    };
    let _put = put_all(&mut book, &puts);
    for _ in 0..ROUNDS {
        let (hit, found) = look_at_either(rt, &mut book, &hits)?;
        let (turned_hit, turned_found) = look_at_either(rt, &mut book, &turned_hits)?;
        let (miss, wrong) = look_at_either(rt, &mut book, &misses)?;
        least = EitherTimes {
            hit: least.hit.min(hit),
            turned_hit: least.turned_hit.min(turned_hit),
            miss: least.miss.min(miss),
            sum: found.wrapping_sub(turned_found).wrapping_add(wrong),
        };
    }
    Ok(least)
}

/// Each entry has a white stone that a hit lacks; a miss has another one.
fn measure_wider(rt: &HostRuntime, size: Size, count: u32) -> io::Result<()> {
    if count > 1048576 || count == 0 {
        return Ok(());
    }
    let puts = list_wide(rt.alloc(), size, count, 1 << 55)?;
    let hits = mixed(rt.alloc(), &list_wide(rt.alloc(), size, count, 0)?)?;
    let misses = mixed(rt.alloc(), &list_wide(rt.alloc(), size, count, 1 << 56)?)?;
    let Ok(mut book) = Book::with_buckets(rt.alloc(), count, count) else {
        return Ok(());
    };
    let mut sum = put_all(&mut book, &puts);
    let (mut hit, mut miss) = (u64::MAX, u64::MAX);
    for _ in 0..ROUNDS {
        let start = Instant::now(rt)?;
        sum = sum.wrapping_add(find_all_wider(&book, &hits));
        hit = hit.min(since(rt, start)?);
        let start = Instant::now(rt)?;
        sum = sum.wrapping_add(find_all_wider(&book, &misses));
        miss = miss.min(since(rt, start)?);
    }
    let each = u64::from(count);
    println!(rt;
        "{count} entries, wider: hit {} ns, miss {} ns, sum {sum}",
        hit / each,
        miss / each
    )
}

fn main(rt: HostRuntime) -> io::Result<()> {
    let Some(size) = Size::new(11, 11) else {
        return Ok(());
    };
    println!(rt;
        "an entry has {} bytes, a key and its answer {}",
        size_of::<Entry>(),
        size_of::<(Key, Found)>()
    )?;
    for count in [1048576u32, 65536] {
        measure(&rt, size, count, count)?;
        measure(&rt, size, count, 2 * count)?;
        measure_wider(&rt, size, count)?;
        let either = time_either(&rt, rt.alloc(), size, count)?;
        let each = u64::from(count).max(1);
        println!(rt;
            "{count} entries, look_either: hit {} ns, hit of the turned position {} ns, miss {} ns, difference of sums {}",
            either.hit / each,
            either.turned_hit / each,
            either.miss / each,
            either.sum
        )?;
    }
    Ok(())
}
