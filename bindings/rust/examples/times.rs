//! Prints how long calls take with a million pairs, in nanoseconds per call, compared with std's map with two
//! hashers. `cargo run --release --example times ROUNDS PAIRS` prints the minimum over that many rounds; it asserts
//! nothing.

use bucket::{Cache, Map, Seed, Set};
use std::collections::hash_map::RandomState;
use std::collections::{HashMap, HashSet};
use std::hash::{BuildHasher, BuildHasherDefault, Hasher};
use std::hint::black_box;
use std::time::Instant;

/// A folded multiplication of the last word: one of the fastest hashes in use for maps.
#[derive(Default)]
struct Folded(u64);

impl Hasher for Folded {
    fn write(&mut self, bytes: &[u8]) {
        for piece in bytes.chunks(8) {
            let mut word = [0; 8];
            word[..piece.len()].copy_from_slice(piece);
            self.write_u64(u64::from_le_bytes(word));
        }
    }

    fn write_u64(&mut self, word: u64) {
        let product = u128::from(self.0 ^ word) * 0x9e37_79b9_7f4a_7c15_u128;
        self.0 = (product as u64) ^ (product >> 64) as u64;
    }

    fn finish(&self) -> u64 {
        self.0
    }
}

type FoldedState = BuildHasherDefault<Folded>;

/// The minimum time of each call, in the order in which they first ran.
struct Times(Vec<(String, f64)>);

impl Times {
    /// Times a call for each key.
    fn add<K>(&mut self, name: String, keys: &[K], mut call: impl FnMut(&K) -> u64) {
        self.once(name, keys.len(), || keys.iter().fold(0u64, |sum, key| sum.wrapping_add(call(key))));
    }

    /// Times a call that does that many operations.
    fn once(&mut self, name: String, count: usize, call: impl FnOnce() -> u64) {
        let start = Instant::now();
        black_box(call());
        let time = start.elapsed().as_nanos() as f64 / count as f64;
        match self.0.iter_mut().find(|(other, _)| *other == name) {
            Some((_, least)) => *least = least.min(time),
            None => self.0.push((name, time)),
        }
    }
}

fn words(mut seed: u64, pairs: usize) -> Vec<u64> {
    let word = |_| {
        seed = seed.wrapping_add(0x9e37_79b9_7f4a_7c15);
        let word = (seed ^ (seed >> 30)).wrapping_mul(0xbf58_476d_1ce4_e5b9);
        let word = (word ^ (word >> 27)).wrapping_mul(0x94d0_49bb_1331_11eb);
        word ^ (word >> 31)
    };
    (0..pairs).map(word).collect()
}

fn ours(times: &mut Times, who: &str, seed: Seed, there: &[u64], others: &[u64]) {
    let mut map = Map::with_seed(seed);
    times.add(format!("{who}: insert"), there, |key| map.insert(*key, *key).unwrap().is_none().into());
    times.add(format!("{who}: get, present"), there, |key| map.get(key).copied().unwrap_or(1));
    times.add(format!("{who}: get, absent"), others, |key| map.get(key).copied().unwrap_or(1));
    times.add(format!("{who}: insert over"), there, |key| map.insert(*key, 1).unwrap().unwrap_or(1));
    times.add(format!("{who}: entry += 1"), there, |key| {
        let value = map.entry(*key).or_insert(0).unwrap();
        *value += 1;
        *value
    });
    times.once(format!("{who}: a pair of iter"), there.len(), || map.iter().map(|(key, value)| key ^ value).sum());
    times.once(format!("{who}: copy by a loop"), there.len(), || {
        let mut copy = Map::with_seed(seed);
        map.iter().filter(|(key, value)| copy.insert(**key, **value).unwrap().is_none()).count() as u64
    });
    times.add(format!("{who}: remove"), there, |key| map.remove(key).unwrap_or(1));
}

fn stds<S: BuildHasher + Clone + Default>(times: &mut Times, who: &str, there: &[u64], others: &[u64]) {
    let mut map: HashMap<u64, u64, S> = HashMap::default();
    times.add(format!("{who}: insert"), there, |key| map.insert(*key, *key).is_none().into());
    times.add(format!("{who}: get, present"), there, |key| map.get(key).copied().unwrap_or(1));
    times.add(format!("{who}: get, absent"), others, |key| map.get(key).copied().unwrap_or(1));
    times.add(format!("{who}: insert over"), there, |key| map.insert(*key, 1).unwrap_or(1));
    times.add(format!("{who}: entry += 1"), there, |key| {
        let value = map.entry(*key).or_insert(0);
        *value += 1;
        *value
    });
    times.once(format!("{who}: a pair of iter"), there.len(), || map.iter().map(|(key, value)| key ^ value).sum());
    times.once(format!("{who}: copy by a loop"), there.len(), || {
        let mut copy = HashMap::with_hasher(map.hasher().clone());
        map.iter().filter(|(key, value)| copy.insert(**key, **value).is_none()).count() as u64
    });
    times.add(format!("{who}: remove"), there, |key| map.remove(key).unwrap_or(1));
}

fn our_texts(times: &mut Times, who: &str, seed: Seed, names: &[String]) {
    let mut map = Map::with_seed(seed);
    times.add(format!("{who}: insert"), names, |key| map.insert(key.clone(), 1u64).unwrap().is_none().into());
    times.add(format!("{who}: get, present"), names, |key| map.get(&key[..]).copied().unwrap_or(1));
    times.add(format!("{who}: remove"), names, |key| map.remove(&key[..]).unwrap_or(1));
}

fn std_texts<S: BuildHasher + Default>(times: &mut Times, who: &str, names: &[String]) {
    let mut map: HashMap<String, u64, S> = HashMap::default();
    times.add(format!("{who}: insert"), names, |key| map.insert(key.clone(), 1).is_none().into());
    times.add(format!("{who}: get, present"), names, |key| map.get(&key[..]).copied().unwrap_or(1));
    times.add(format!("{who}: remove"), names, |key| map.remove(&key[..]).unwrap_or(1));
}

fn sets_and_caches(times: &mut Times, there: &[u64]) {
    let mut set = Set::with_seed(Seed::FIXED);
    times.add("bucket, set, fixed seed: insert".into(), there, |key| set.insert(*key).unwrap().into());
    times.add("bucket, set, fixed seed: contains".into(), there, |key| set.contains(key).into());
    let mut set: HashSet<u64, FoldedState> = HashSet::default();
    times.add("std, set, folded: insert".into(), there, |key| set.insert(*key).into());
    times.add("std, set, folded: contains".into(), there, |key| set.contains(key).into());
    let mut cache = Cache::with_seed(2 * there.len(), Seed::FIXED).unwrap();
    times.add("bucket, cache, fixed seed: put".into(), there, |key| cache.put(*key, *key).unwrap().is_none().into());
    times.add("bucket, cache, fixed seed: get".into(), there, |key| cache.get(key).copied().unwrap_or(1));
    let mut cache = Cache::with_seed(there.len() / 2, Seed::FIXED).unwrap();
    times.add("bucket, full cache, fixed seed: put".into(), there, |key| cache.put(*key, *key).unwrap().is_none().into());
}

fn main() {
    let number = |place| std::env::args().nth(place).and_then(|number| number.parse().ok());
    let (rounds, pairs) = (number(1).unwrap_or(3), number(2).unwrap_or(1_000_000));
    let (there, others) = (words(1, pairs), words(1 << 40, pairs));
    let names: Vec<String> = there.iter().map(|key| format!("key {key}")).collect();
    let mut times = Times(Vec::new());
    for _ in 0..rounds {
        ours(&mut times, "bucket, random seed", Seed::random(), &there, &others);
        stds::<RandomState>(&mut times, "std, SipHash", &there, &others);
        ours(&mut times, "bucket, fixed seed", Seed::FIXED, &there, &others);
        stds::<FoldedState>(&mut times, "std, folded", &there, &others);
        our_texts(&mut times, "bucket, texts, random seed", Seed::random(), &names);
        std_texts::<RandomState>(&mut times, "std, texts, SipHash", &names);
        our_texts(&mut times, "bucket, texts, fixed seed", Seed::FIXED, &names);
        std_texts::<FoldedState>(&mut times, "std, texts, folded", &names);
        sets_and_caches(&mut times, &there);
    }
    for (name, time) in times.0 {
        println!("Rust, {name:<42}{time:8.1} ns");
    }
}
