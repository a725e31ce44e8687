//! Random calls of the crate, checked against std's collections, with values that are counted.

mod common;

use bucket::map::Entry;
use bucket::{Cache, Key, Map, Reason, Seed, Set};
use common::{calls, Chance, Counted, Tally};
use std::collections::{HashMap, HashSet};
use std::fmt::Debug;
use std::hash::Hash;

/// A random key, one of a few thousand.
trait ByChance: Key + Clone + Eq + Hash + Debug {
    fn by_chance(chance: &mut Chance) -> Self;
}

impl ByChance for u64 {
    fn by_chance(chance: &mut Chance) -> u64 {
        chance.below(8000) << (chance.below(2) * 40)
    }
}

impl ByChance for i16 {
    fn by_chance(chance: &mut Chance) -> i16 {
        chance.below(6000) as i16 - 3000
    }
}

impl ByChance for String {
    fn by_chance(chance: &mut Chance) -> String {
        let number = chance.below(4000);
        format!("{number}{}", ".".repeat(number as usize % 41))
    }
}

impl ByChance for Vec<u8> {
    fn by_chance(chance: &mut Chance) -> Vec<u8> {
        vec![chance.below(256) as u8; chance.below(20) as usize]
    }
}

/// A map checked against std's, whose values have the same numbers.
struct Both<K> {
    map: Map<K, Counted>,
    std: HashMap<K, u64>,
    tally: Tally,
}

impl<K: ByChance> Both<K> {
    fn call(&mut self, chance: &mut Chance) {
        let Both { map, std, tally } = self;
        let (key, number) = (K::by_chance(chance), chance.next());
        let as_number = |value: Counted| value.number;
        match chance.below(12) {
            0 | 1 => assert_eq!(map.insert(key.clone(), tally.value(number)).unwrap().map(as_number), std.insert(key, number)),
            2 => match map.try_insert(key.clone(), tally.value(number)) {
                Ok(value) => assert_eq!((value.number, std.insert(key, number)), (number, None)),
                Err(error) => {
                    assert_eq!((error.reason, &error.key, error.value.number), (Reason::Present, &key, number));
                    assert!(std.contains_key(&key));
                }
            },
            3 => assert_eq!(map.remove(&key).map(as_number), std.remove(&key)),
            4 => assert_eq!(map.remove_entry(&key).map(|(key, value)| (key, value.number)), std.remove_entry(&key)),
            5 => assert_eq!(map.get(&key).map(|value| value.number), std.get(&key).copied()),
            6 => assert_eq!(map.contains_key(&key), std.contains_key(&key)),
            7 => {
                if let Some(value) = map.get_mut(&key) {
                    value.number ^= number;
                }
                std.entry(key).and_modify(|other| *other ^= number);
            }
            8 => {
                let value = map.entry(key.clone()).or_insert_with(|| tally.value(number)).unwrap();
                assert_eq!(value.number, *std.entry(key).or_insert(number));
            }
            9 => match map.entry(key.clone()) {
                Entry::Occupied(entry) => assert_eq!(Some(entry.remove().number), std.remove(&key)),
                Entry::Vacant(entry) => {
                    entry.insert(tally.value(number)).unwrap();
                    assert_eq!(std.insert(key, number), None);
                }
            },
            10 => {
                let found = map.get_key_value(&key).map(|(key, value)| (key, &value.number));
                assert_eq!(found, std.get_key_value(&key));
            }
            _ => assert_eq!(map.len(), std.len()),
        }
    }

    /// A call that goes through all pairs, one of several kinds in turn.
    fn all(&mut self, turn: usize) {
        let Both { map, std, tally } = self;
        match turn % 6 {
            0 => {
                map.retain(|_, value| value.number % 2 == 0);
                std.retain(|_, number| *number % 2 == 0);
            }
            1 => {
                let mut taken = 0;
                for (key, value) in map.extract_if(|_, value| value.number % 3 == 0).take(500) {
                    assert_eq!(std.remove(&key), Some(value.number));
                    taken += 1;
                }
                assert!(taken > 0);
            }
            2 => {
                map.values_mut().for_each(|value| value.number += 1);
                std.values_mut().for_each(|number| *number += 1);
            }
            3 => {
                let copy = map.try_clone().unwrap();
                assert_eq!((&copy, tally.there()), (&*map, 2 * map.len() as isize));
                *map = copy;
            }
            4 => map.shrink_to_fit().unwrap(),
            _ => {
                let half = map.len() / 2;
                let there: Vec<_> = map.drain().take(half).collect();
                assert_eq!(tally.there(), half as isize);
                let mut left = HashMap::new();
                left.extend(there.iter().map(|(key, value)| (key.clone(), value.number)));
                assert!(left.iter().all(|(key, number)| std.get(key) == Some(number)));
                *std = left;
                map.extend(there);
            }
        }
        self.compare();
    }

    fn compare(&self) {
        assert_eq!((self.map.len(), self.tally.there()), (self.std.len(), self.std.len() as isize));
        let numbers = self.map.iter().map(|(key, value)| (key.clone(), value.number));
        assert_eq!(numbers.collect::<HashMap<_, _>>(), self.std);
        assert_eq!(self.map.iter().count(), self.std.len());
    }
}

fn a_map_answers_as_std_does<K: ByChance>(seed: u64) {
    for hashed in [Seed::FIXED, Seed::random()] {
        let mut chance = Chance(seed);
        let tally = Tally::default();
        let mut both: Both<K> = Both { map: Map::with_seed(hashed), std: HashMap::new(), tally: tally.clone() };
        let calls = calls();
        for call in 0..calls {
            both.call(&mut chance);
            if (call + 1) % (calls / 24) == 0 {
                both.all(call / (calls / 24));
            }
        }
        both.compare();
        let mut left = both.map.into_iter();
        assert_eq!(left.by_ref().take(10).count(), 10);
        assert_eq!(tally.there(), left.len() as isize);
        drop(left);
        assert_eq!(tally.there(), 0);
    }
}

#[test]
fn a_map_of_words_answers_as_std_does() {
    a_map_answers_as_std_does::<u64>(1);
}

#[test]
fn a_map_of_numbers_with_a_sign_answers_as_std_does() {
    a_map_answers_as_std_does::<i16>(2);
}

#[test]
fn a_map_of_texts_answers_as_std_does() {
    a_map_answers_as_std_does::<String>(3);
}

#[test]
fn a_map_of_bytes_answers_as_std_does() {
    a_map_answers_as_std_does::<Vec<u8>>(4);
}

fn a_set_answers_as_std_does<K: ByChance>(seed: u64) {
    let mut chance = Chance(seed);
    let (mut set, mut std) = (Set::new(), HashSet::new());
    for call in 0..calls() {
        let key = K::by_chance(&mut chance);
        match chance.below(6) {
            0 | 1 => assert_eq!(set.insert(key.clone()), Ok(std.insert(key))),
            2 => assert_eq!(set.remove(&key), std.remove(&key)),
            3 => assert_eq!(set.take(&key), std.take(&key)),
            4 => assert_eq!(set.replace(key.clone()), Ok(std.replace(key))),
            _ => assert_eq!((set.contains(&key), set.get(&key)), (std.contains(&key), std.get(&key))),
        }
        if call % 40_000 == 39_999 {
            assert_eq!(set.extract_if(|_| true).take(100).map(|key| std.remove(&key)).filter(|was| *was).count(), 100);
            assert_eq!(set.iter().cloned().collect::<HashSet<_>>(), std);
        }
    }
    assert_eq!(set.into_iter().collect::<HashSet<_>>(), std);
}

#[test]
fn a_set_of_words_answers_as_std_does() {
    a_set_answers_as_std_does::<u64>(5);
}

#[test]
fn a_set_of_texts_answers_as_std_does() {
    a_set_answers_as_std_does::<String>(6);
}

fn a_cache_is_a_map_less_what_leaves_it<K: ByChance>(seed: u64) {
    let mut chance = Chance(seed);
    let tally = Tally::default();
    let mut cache: Cache<K, Counted> = Cache::new(1024).unwrap();
    let mut std: HashMap<K, u64> = HashMap::new();
    let mut evicted = 0;
    for call in 0..calls() {
        let (key, number) = (K::by_chance(&mut chance), chance.next());
        match chance.below(9) {
            0..=2 => {
                let gone = cache.put(key.clone(), tally.value(number)).unwrap().map(|(key, value)| (key, value.number));
                let earlier = std.insert(key.clone(), number);
                match gone {
                    Some((other, value)) if other == key => assert_eq!(earlier, Some(value)),
                    Some((other, value)) => {
                        assert_eq!((earlier, std.remove(&other)), (None, Some(value)));
                        evicted += 1;
                    }
                    None => assert_eq!(earlier, None),
                }
            }
            3 => match cache.try_insert(key.clone(), tally.value(number)) {
                Ok(gone) => {
                    assert_eq!(std.insert(key, number), None);
                    if let Some((other, value)) = gone {
                        assert_eq!(std.remove(&other), Some(value.number));
                    }
                }
                Err(error) => assert_eq!((error.reason, std.contains_key(&key)), (Reason::Present, true)),
            },
            4 => assert_eq!(cache.remove(&key).map(|value| value.number), std.remove(&key)),
            5 => assert_eq!(cache.get(&key).map(|value| value.number), std.get(&key).copied()),
            6 => assert_eq!(cache.peek(&key).map(|value| value.number), std.get(&key).copied()),
            7 => {
                let found = cache.get_mut(&key).map(|value| {
                    value.number ^= 1;
                    value.number
                });
                assert_eq!(found, std.get_mut(&key).map(|other| {
                    *other ^= 1;
                    *other
                }));
            }
            _ => assert_eq!((cache.contains(&key), cache.len()), (std.contains_key(&key), std.len())),
        }
        if call % 20_000 == 19_999 {
            cache.retain(|_, value| value.number % 8 > 0);
            std.retain(|_, number| *number % 8 > 0);
            let numbers = cache.iter().map(|(key, value)| (key.clone(), value.number));
            assert_eq!((numbers.collect::<HashMap<_, _>>(), tally.there()), (std.clone(), std.len() as isize));
        }
    }
    assert!(evicted > 100);
    assert_eq!(cache.into_iter().map(|(key, value)| (key, value.number)).collect::<HashMap<_, _>>(), std);
    assert_eq!(tally.there(), 0);
}

#[test]
fn a_cache_of_words_is_a_map_less_what_leaves_it() {
    a_cache_is_a_map_less_what_leaves_it::<u64>(7);
}

#[test]
fn a_cache_of_texts_is_a_map_less_what_leaves_it() {
    a_cache_is_a_map_less_what_leaves_it::<String>(8);
}
