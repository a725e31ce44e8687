//! What calls on the `HashMap` of Rust's standard library cost, under the hash of crates/bench_table:
//! the same courses over the same keys, printed in the same lines.
//!
//! The arguments are `calls`, `large` or `single`, and a number of pairs.
use std::collections::HashMap;
use std::hash::{BuildHasherDefault, Hasher};
use std::time::Instant;
use std::{env, fs};

const MULTIPLIER: u64 = 11400714819323198485;

/// The number of pairs that a run has at least, all courses taken together.
const PAIRS: u64 = 64_000;

#[derive(Default)]
struct Mixer(u64);

impl Hasher for Mixer {
    fn finish(&self) -> u64 {
        let once = self.0.wrapping_mul(MULTIPLIER);
        once.wrapping_add(once >> 32).wrapping_mul(MULTIPLIER)
    }

    fn write(&mut self, bytes: &[u8]) {
        for byte in bytes {
            self.0 = self.0 >> 8 | u64::from(*byte) << 56;
        }
    }

    fn write_u64(&mut self, number: u64) {
        self.0 = number;
    }
}

type Map = HashMap<u64, u64, BuildHasherDefault<Mixer>>;

fn main() {
    let args: Vec<String> = env::args().collect();
    let course = args.get(1).expect("a course").as_str();
    let pairs: u64 = args.get(2).expect("a number").parse().expect("a number");
    for _ in 0..(PAIRS / pairs.max(1)).max(1) {
        match course {
            "calls" => run_calls(pairs),
            "large" => run_large(pairs),
            "single" => run_single(pairs),
            _ => panic!("calls, large or single"),
        }
    }
}

fn print_time(name: &str, start: Instant, calls: u64) {
    println!("{name} {} {calls}", start.elapsed().as_nanos());
}

fn run_calls(pairs: u64) {
    let before = resident_bytes();
    let mut map = Map::default();
    let start = Instant::now();
    assert_eq!(insert_all(&mut map, 0, pairs), pairs);
    print_time("insert", start, pairs);
    println!("bytes {} {pairs}", resident_bytes().saturating_sub(before));
    let start = Instant::now();
    assert_eq!(find_all(&map, 0, pairs), pairs);
    print_time("hit", start, pairs);
    let start = Instant::now();
    assert_eq!(miss_all(&map, pairs, 2 * pairs), pairs);
    print_time("miss", start, pairs);
    let start = Instant::now();
    assert_eq!(churn_all(&mut map, pairs), pairs);
    print_time("churn", start, pairs);
    let start = Instant::now();
    let sum = sum(&mut map);
    print_time("walk", start, pairs);
    assert_eq!(sum, (pairs..2 * pairs).sum());
    let start = Instant::now();
    let sum = iterated(&map);
    print_time("iter", start, pairs);
    assert_eq!(sum, (pairs..2 * pairs).sum());
    let start = Instant::now();
    assert_eq!(remove_all(&mut map, pairs, 2 * pairs), pairs);
    print_time("remove", start, pairs);
    assert_eq!(insert_all(&mut map, 0, pairs), pairs);
    let start = Instant::now();
    assert_eq!(drop_odd(&mut map), pairs / 2);
    print_time("sweep", start, pairs);
}

fn run_large(pairs: u64) {
    let mut map = Map::with_capacity_and_hasher(pairs as usize, BuildHasherDefault::default());
    let start = Instant::now();
    assert_eq!(insert_all(&mut map, 0, pairs), pairs);
    print_time("large", start, pairs);
    let start = Instant::now();
    assert_eq!(remove_all(&mut map, 0, pairs), pairs);
    print_time("emptied", start, pairs);
}

fn run_single(pairs: u64) {
    let mut times: Vec<u128> = Vec::with_capacity(pairs as usize);
    let mut map = Map::default();
    for key in 0..pairs {
        let start = Instant::now();
        let was = map.insert(key, key);
        times.push(start.elapsed().as_nanos());
        assert!(was.is_none());
    }
    times.sort_unstable();
    let slowest = |rank: usize| times.len().checked_sub(rank).map_or(0, |place| times[place]);
    println!("longest {} 1", slowest(1));
    println!("rarely {} 1", slowest(times.len() / 10_000 + 1));
    for rank in [1, 10, 100, 1_000, 10_000, 100_000, 1_000_000] {
        if rank < times.len() {
            println!("rank{rank} {} 1", slowest(rank));
        }
    }
    println!("median {} 1", slowest(times.len() / 2));
}

fn resident_bytes() -> u64 {
    let sizes = fs::read_to_string("/proc/self/statm").expect("sizes");
    let pages = sizes.split_whitespace().nth(1).expect("pages");
    4096 * pages.parse::<u64>().expect("a number")
}

#[inline(never)]
fn insert_all(map: &mut Map, from: u64, to: u64) -> u64 {
    (from..to).filter(|&key| map.insert(key, key).is_none()).count() as u64
}

#[inline(never)]
fn find_all(map: &Map, from: u64, to: u64) -> u64 {
    (from..to).filter(|key| map.contains_key(key)).count() as u64
}

#[inline(never)]
fn miss_all(map: &Map, from: u64, to: u64) -> u64 {
    (from..to).filter(|key| !map.contains_key(key)).count() as u64
}

#[inline(never)]
fn churn_all(map: &mut Map, pairs: u64) -> u64 {
    (0..pairs)
        .filter(|key| map.remove(key).is_some() && map.insert(key + pairs, key + pairs).is_none())
        .count() as u64
}

#[inline(never)]
fn remove_all(map: &mut Map, from: u64, to: u64) -> u64 {
    (from..to).filter(|key| map.remove(key).is_some()).count() as u64
}

#[inline(never)]
fn sum(map: &mut Map) -> u64 {
    map.values().fold(0, |sum: u64, value| sum.wrapping_add(*value))
}

#[inline(never)]
fn iterated(map: &Map) -> u64 {
    let mut sum: u64 = 0;
    for (_, value) in map.iter() {
        sum = sum.wrapping_add(*value);
    }
    sum
}

#[inline(never)]
fn drop_odd(map: &mut Map) -> u64 {
    let before = map.len();
    map.retain(|_, value| *value % 2 == 0);
    (before - map.len()) as u64
}
