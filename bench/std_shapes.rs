//! What bench/shapes.sh times, on the collections of Rust's standard library: the shapes of
//! crates/bench_table/src/shapes.rt on the same keys, printed in the same lines.
//!
//! The arguments are a group of shapes, a number of pairs, and `same` for the default hash of
//! crates/collections, or `default` for std's. An index and a cache are maps here.
use std::collections::hash_map::RandomState;
use std::collections::{HashMap, HashSet};
use std::hash::{BuildHasher, BuildHasherDefault, Hasher};
use std::hint::black_box;
use std::time::{Duration, Instant};
use std::{env, iter};

/// The number of pairs that a run has at least.
const PAIRS: u64 = 64_000;

/// How often a shape of few pairs runs.
const ROUNDS: u64 = 10_000;

/// How often a call runs that only counts.
const CALLS: u64 = 1000;

/// Multiplies to 128 bits and folds the halves.
struct Folder(u64);

impl Default for Folder {
    fn default() -> Folder {
        Folder(0x243f_6a88_85a3_08d3)
    }
}

impl Hasher for Folder {
    fn finish(&self) -> u64 {
        self.0
    }

    fn write(&mut self, _bytes: &[u8]) {
        unreachable!("only numbers are keys");
    }

    fn write_u64(&mut self, number: u64) {
        let product = u128::from(self.0 ^ number) * u128::from(0x9e37_79b9_7f4a_7c15u64 ^ 16);
        self.0 = product as u64 ^ (product >> 64) as u64;
    }
}

/// Gives each key one hash.
#[derive(Default)]
struct Zero;

impl Hasher for Zero {
    fn finish(&self) -> u64 {
        0
    }

    fn write(&mut self, _bytes: &[u8]) {}
}

trait Hash: BuildHasher + Default + Clone {}

impl<S: BuildHasher + Default + Clone> Hash for S {}

type Map<S> = HashMap<u64, u64, S>;

type Set<S> = HashSet<u64, S>;

fn main() {
    let args: Vec<String> = env::args().collect();
    let pairs: u64 = args[2].parse().expect("a number");
    for _ in 0..(PAIRS / pairs.max(1)).max(1) {
        match args[3].as_str() {
            "same" => run::<BuildHasherDefault<Folder>>(&args[1], pairs),
            "default" => run::<RandomState>(&args[1], pairs),
            _ => panic!("same or default"),
        }
    }
}

fn run<S: Hash>(group: &str, pairs: u64) {
    match group {
        "map" => run_map::<S>(pairs),
        "set" => run_set::<S>(pairs),
        "index" | "cache" => run_all_kinds::<Map<S>>(group, pairs),
        "small" => run_small::<S>(),
        "longest" => {
            run_longest_of::<Map<S>>("map", pairs);
            run_longest_of::<Set<S>>("set", pairs);
            run_longest_of::<Map<S>>("index", pairs);
            run_longest_of::<Map<S>>("cache", pairs);
        }
        "counts" => run_calls::<S>(group, pairs),
        "crowd" => run_calls::<BuildHasherDefault<Zero>>(group, pairs),
        _ => panic!("a group of shapes"),
    }
}

/// Runs a table of shapes, each a name and a function, on new collections.
macro_rules! run_table {
    ($kind:expr, $pairs:expr, $from:expr; $($name:literal => $shape:expr,)*) => {{
        $(run_shape($kind, $name, $pairs, $from, $shape);)*
    }};
}

/// Runs the shapes of all collections, after a copy that isn't timed: it gives the process memory.
fn run_all_kinds<C: Shaped>(kind: &str, pairs: u64) {
    drop(black_box(copied(filled::<C>(pairs))));
    run_table! { kind, pairs, filled::<C>(pairs);
        "loop" => copied,
        "loop, reverse order" => reversed,
        "keys, clear, insert" => restored,
        "remove in order" => removed,
        "remove in reverse" => removed_back,
        "retain half" => halved,
        "clear, refill" => refilled,
    }
}

fn run_map<S: Hash>(pairs: u64) {
    run_all_kinds::<Map<S>>("map", pairs);
    run_table! { "map", pairs, filled::<Map<S>>(pairs);
        "filter, map, collect" => |from: Map<S>| -> Map<S> {
            from.iter().filter(|pair| *pair.0 % 2 == 0).map(|(key, value)| (*key, *value)).collect()
        },
        "into_iter, collect" => |from: Map<S>| -> Map<S> { from.into_iter().collect() },
        "extend" => extended::<Map<S>, (u64, u64)>,
        "try_extend" => extended::<Map<S>, (u64, u64)>,
        "drain, insert" => |mut from: Map<S>| {
            let pairs: Vec<(u64, u64)> = from.drain().collect();
            for (key, value) in pairs {
                from.insert(key, value);
            }
            from
        },
        "extract_if, collect" => |mut from: Map<S>| -> Map<S> {
            from.extract_if(|key, _| key % 2 == 0).collect()
        },
        "split into four" => |from: Map<S>| {
            let mut parts: Vec<Map<S>> = iter::repeat_with(Map::default).take(4).collect();
            for (key, value) in &from {
                parts[(key % 4) as usize].insert(*key, *value);
            }
            parts.pop().unwrap_or(from)
        },
    }
}

fn run_set<S: Hash>(pairs: u64) {
    run_all_kinds::<Set<S>>("set", pairs);
    run_table! { "set", pairs, filled::<Set<S>>(pairs);
        "filter, map, collect" => |from: Set<S>| -> Set<S> {
            from.iter().filter(|key| **key % 2 == 0).map(|key| *key).collect()
        },
        "into_iter, collect" => |from: Set<S>| -> Set<S> { from.into_iter().collect() },
        "extend" => extended::<Set<S>, u64>,
        "try_extend" => extended::<Set<S>, u64>,
        "drain, insert" => |mut from: Set<S>| {
            let keys: Vec<u64> = from.drain().collect();
            for key in keys {
                from.insert(key);
            }
            from
        },
        "extract_if, collect" => |mut from: Set<S>| -> Set<S> {
            from.extract_if(|key| key % 2 == 0).collect()
        },
    }
    let other = || (pairs / 2..pairs / 2 + pairs).collect();
    run_table! { "set", pairs, (filled::<Set<S>>(pairs), other());
        "union, collect" => |(one, other): (Set<S>, Set<S>)| -> Set<S> {
            one.union(&other).copied().collect()
        },
        "intersection, collect" => |(one, other): (Set<S>, Set<S>)| -> Set<S> {
            one.intersection(&other).copied().collect()
        },
    }
}

fn run_small<S: Hash>() {
    run_small_kind::<Map<S>>("map");
    run_small_kind::<Set<S>>("set");
    run_small_kind::<Map<S>>("index");
    run_small_kind::<Map<S>>("cache");
    run_table! { "map", ROUNDS, filled::<Map<S>>(3);
        "clone 3 pairs" => |from: Map<S>| {
            let mut last = Map::default();
            for _ in 0..ROUNDS {
                last = black_box(&from).clone();
            }
            last
        },
    }
}

fn run_small_kind<C: Shaped>(kind: &str) {
    run_table! { kind, ROUNDS, C::default();
        "make, insert 3, get 1, drop" => |mut last: C| {
            for _ in 0..ROUNDS {
                last = black_box(three());
            }
            last
        },
        "insert, remove" => |mut from: C| {
            for key in 0..ROUNDS {
                from.put(key);
                from.take(key);
            }
            from
        },
        "clear, insert 1" => |mut from: C| {
            for key in 0..ROUNDS {
                from.wipe();
                from.put(key);
            }
            from
        },
    }
}

fn run_longest_of<C: Shaped>(kind: &str, pairs: u64) {
    let keys = filled::<C>(pairs).listed();
    let mut to = C::default();
    let mut longest = Duration::ZERO;
    for key in keys {
        let start = Instant::now();
        to.put(key);
        longest = longest.max(start.elapsed());
    }
    println!("{} 1 {} {kind}: longest insertion", longest.as_nanos(), to.count());
}

fn run_calls<S: Hash>(kind: &str, pairs: u64) {
    let map = filled::<Map<S>>(pairs);
    run_table! { kind, CALLS, &map;
        "len" => |map: &Map<S>| repeated(|| black_box(map).len()),
        "is_empty" => |map: &Map<S>| repeated(|| usize::from(black_box(map).is_empty())),
        "iter().size_hint()" => |map: &Map<S>| repeated(|| black_box(map).iter().size_hint().0),
    }
}

/// Adds up what the calls return.
fn repeated(call: impl Fn() -> usize) -> usize {
    (0..CALLS).map(|_| call()).sum()
}

fn run_shape<S, C: Counted>(kind: &str, name: &str, pairs: u64, from: S, shape: impl Fn(S) -> C) {
    let start = Instant::now();
    let to = shape(from);
    let nanoseconds = start.elapsed().as_nanos();
    println!("{nanoseconds} {pairs} {} {kind}: {name}", to.count());
}

/// What is counted at the end.
trait Counted {
    fn count(&self) -> usize;
}

impl Counted for usize {
    fn count(&self) -> usize {
        *self
    }
}

/// A collection of numbers.
trait Shaped: Counted + Default {
    fn put(&mut self, key: u64);
    fn has(&self, key: u64) -> bool;
    fn take(&mut self, key: u64);
    fn wipe(&mut self);
    fn halve(&mut self);
    fn listed(&self) -> Vec<u64>;
    fn pour(&self, to: &mut Self);
}

impl<S: Hash> Counted for Map<S> {
    fn count(&self) -> usize {
        self.len()
    }
}

impl<S: Hash> Shaped for Map<S> {
    fn put(&mut self, key: u64) {
        self.insert(key, key);
    }

    fn has(&self, key: u64) -> bool {
        self.contains_key(&key)
    }

    fn take(&mut self, key: u64) {
        self.remove(&key);
    }

    fn wipe(&mut self) {
        self.clear();
    }

    fn halve(&mut self) {
        self.retain(|key, _| key % 2 == 0);
    }

    fn listed(&self) -> Vec<u64> {
        self.keys().copied().collect()
    }

    fn pour(&self, to: &mut Self) {
        for (key, value) in self {
            to.insert(*key, *value);
        }
    }
}

impl<S: Hash> Counted for Set<S> {
    fn count(&self) -> usize {
        self.len()
    }
}

impl<S: Hash> Shaped for Set<S> {
    fn put(&mut self, key: u64) {
        self.insert(key);
    }

    fn has(&self, key: u64) -> bool {
        self.contains(&key)
    }

    fn take(&mut self, key: u64) {
        self.remove(&key);
    }

    fn wipe(&mut self) {
        self.clear();
    }

    fn halve(&mut self) {
        self.retain(|key| key % 2 == 0);
    }

    fn listed(&self) -> Vec<u64> {
        self.iter().copied().collect()
    }

    fn pour(&self, to: &mut Self) {
        for key in self {
            to.insert(*key);
        }
    }
}

fn filled<C: Shaped>(pairs: u64) -> C {
    let mut made = C::default();
    (0..pairs).for_each(|key| made.put(key));
    made
}

fn copied<C: Shaped>(from: C) -> C {
    let mut to = C::default();
    from.pour(&mut to);
    to
}

fn reversed<C: Shaped>(from: C) -> C {
    let mut to = C::default();
    from.listed().iter().rev().for_each(|key| to.put(*key));
    to
}

fn restored<C: Shaped>(mut from: C) -> C {
    let keys = from.listed();
    from.wipe();
    keys.iter().for_each(|key| from.put(*key));
    from
}

fn removed<C: Shaped>(mut from: C) -> C {
    from.listed().iter().for_each(|key| from.take(*key));
    from
}

fn removed_back<C: Shaped>(mut from: C) -> C {
    from.listed().iter().rev().for_each(|key| from.take(*key));
    from
}

fn halved<C: Shaped>(mut from: C) -> C {
    from.halve();
    from
}

fn refilled<C: Shaped>(mut from: C) -> C {
    let pairs = from.count() as u64;
    from.wipe();
    (0..pairs).for_each(|key| from.put(key));
    from
}

fn extended<C: Default + Extend<T> + IntoIterator<Item = T>, T>(from: C) -> C {
    let mut to = C::default();
    to.extend(from);
    to
}

#[inline(never)]
fn three<C: Shaped>() -> C {
    let mut made: C = filled(3);
    if !made.has(2) {
        made.put(4);
    }
    made
}
