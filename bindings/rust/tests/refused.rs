//! Fails each allocation of a call in turn, alone and with all after it, including those of the library: a call that
//! fails changes nothing, returns what its documentation says, and none aborts.
#![cfg(target_env = "gnu")]

mod common;
mod refusing;

use bucket::map::Entry;
use bucket::{Cache, Key, Map, NoMemory, Reason, Seed, Set};
use common::{Counted, Tally};
use refusing::{asked, granting, held};
use std::collections::BTreeMap;
use std::fmt::{Debug, Write};
use std::process::Command;

/// The key with a given number.
trait Numbered: Key + Clone + Ord + Debug {
    fn of(number: u64) -> Self;
}

impl Numbered for u64 {
    fn of(number: u64) -> u64 {
        number * 0x1_0001
    }
}

impl Numbered for String {
    fn of(number: u64) -> String {
        format!("a key of its own, number {number}")
    }
}

/// A way to insert a pair whose key is absent; it returns the pair if the call does.
type Way<K> = (&'static str, fn(&mut Map<K, Counted>, K, Counted) -> Result<(), Option<(K, Counted)>>);

fn ways<K: Key>() -> [Way<K>; 7] {
    [
        ("insert", |map, key, value| map.insert(key, value).map(|earlier| assert!(earlier.is_none())).map_err(|NoMemory| None)),
        ("try_insert", |map, key, value| match map.try_insert(key, value) {
            Ok(_) => Ok(()),
            Err(error) if error.reason == Reason::NoMemory => Err(Some(error.into_pair())),
            Err(_) => unreachable!(),
        }),
        ("or_insert", |map, key, value| map.entry(key).or_insert(value).map(|_| ()).map_err(|NoMemory| None)),
        ("or_insert_with", |map, key, value| map.entry(key).or_insert_with(|| value).map(|_| ()).map_err(|NoMemory| None)),
        ("insert_entry", |map, key, value| map.entry(key).insert_entry(value).map(|_| ()).map_err(|NoMemory| None)),
        ("vacant", |map, key, value| match map.entry(key) {
            Entry::Occupied(_) => unreachable!(),
            Entry::Vacant(entry) => entry.try_insert(value).map(|_| ()).map_err(|error| Some(error.into_pair())),
        }),
        ("try_extend", |map, key, value| map.try_extend([(key, value)]).map_err(|NoMemory| None)),
    ]
}

/// Inserts pairs, each with one more allocation granted until none fails.
fn insertions_lose_nothing<K: Numbered>(pairs: u64) {
    for (name, way) in ways::<K>() {
        for all_after in [false, true] {
            let before = held();
            let tally = Tally::default();
            let mut map = Map::new();
            let mut std = BTreeMap::new();
            let mut failed = 0;
            for number in 0..pairs {
                for granted in 0.. {
                    let (key, value) = (K::of(number), tally.value(number));
                    let (answer, refused) = granting(granted, all_after, || way(&mut map, key, value));
                    let is_in = answer.is_ok();
                    match answer {
                        Ok(()) => assert_eq!(std.insert(K::of(number), number), None),
                        Err(back) => {
                            assert!(refused > 0, "{name}");
                            assert!(back.is_none_or(|(key, value)| key == K::of(number) && value.number == number));
                            failed += 1;
                        }
                    }
                    assert_eq!((map.len(), tally.there()), (std.len(), std.len() as isize), "{name}");
                    if number % 16 == 0 || !is_in {
                        assert!(std.iter().all(|(key, number)| map.get(key).map(|value| value.number) == Some(*number)));
                        assert_eq!(map.iter().count(), std.len());
                    }
                    if is_in {
                        break;
                    }
                }
            }
            // `try_extend` continues without the room whose allocation failed.
            assert!(failed >= pairs || name == "try_extend" && !all_after, "{name}");
            drop((map, std, tally));
            assert_eq!(held(), before, "{name}");
        }
    }
}

#[test]
fn insertions_of_words_lose_nothing() {
    insertions_lose_nothing::<u64>(300);
}

#[test]
fn insertions_of_texts_lose_nothing() {
    insertions_lose_nothing::<String>(150);
}

/// A map with some pairs.
fn map_of<K: Numbered>(tally: &Tally, pairs: u64) -> Map<K, Counted> {
    (0..pairs).map(|number| (K::of(number), tally.value(number))).collect()
}

/// Calls on a key that is present, and those that read or remove, succeed without memory.
fn what_is_there_needs_no_memory<K: Numbered>() {
    let tally = Tally::default();
    let before = held();
    let mut map: Map<K, Counted> = map_of(&tally, 500);
    let other = map_of::<K>(&tally, 500);
    let (keys, values): (Vec<K>, Vec<Counted>) = (0..500).map(|number| (K::of(number), tally.value(number + 1))).unzip();
    let mut text = String::with_capacity(100_000);
    let ((), refused) = granting(0, true, || {
        assert!(map == other && map.iter().count() == 500 && map.iter_mut().len() == 500);
        assert!(keys.iter().all(|key| map.contains_key(key) && map.get(key).is_some() && map.get_mut(key).is_some()));
        write!(text, "{map:?} {:?}", map.keys()).unwrap();
        assert!(Map::<K, u8>::new().is_empty() && Map::<K, u8>::with_capacity(1000).capacity() >= 1000);
    });
    assert_eq!(refused, 0);
    let ((), refused) = granting(0, true, || {
        for (key, value) in keys.into_iter().zip(values) {
            let number = value.number;
            let earlier = map.insert(key, value).unwrap().unwrap();
            assert_eq!(earlier.number + 1, number);
        }
    });
    // The node is allocated first; if that fails, a key that is present is still found.
    assert!(refused <= 500);
    let keys: Vec<K> = (0..500).map(K::of).collect();
    let ((), _) = granting(0, true, || {
        for (key, other) in keys.iter().zip(&keys[1..]).take(100).step_by(2) {
            assert!(map.remove(key).is_some() && map.remove_entry(other).is_some());
        }
        assert_eq!(map.len(), 400);
        map.retain(|_, value| value.number % 2 == 0);
        assert_eq!(map.extract_if(|_, value| value.number % 4 == 0).count(), 100);
        map.shrink_to_fit().ok();
        assert_eq!(map.len(), 100);
        assert_eq!(map.drain().count(), 100);
        map.clear();
        assert_eq!(other.into_iter().take(10).count(), 10);
    });
    drop((map, keys, text));
    assert_eq!((held(), tally.there()), (before, 0));
}

#[test]
fn a_word_that_is_there_needs_no_memory() {
    what_is_there_needs_no_memory::<u64>();
}

#[test]
fn a_text_that_is_there_needs_no_memory() {
    what_is_there_needs_no_memory::<String>();
}

/// Makes a call with no allocation granted, then one and so on, until none fails. `is_same` holds after each failure.
fn refuse_each<T>(all_after: bool, mut call: impl FnMut() -> Result<T, NoMemory>, mut is_same: impl FnMut() -> bool) -> T {
    for granted in 0.. {
        let (answer, refused) = granting(granted, all_after, &mut call);
        match answer {
            Ok(answer) if refused == 0 => return answer,
            // A call may succeed without an allocation that failed.
            Ok(_) => {}
            Err(NoMemory) => assert!(refused > 0 && is_same()),
        }
    }
    unreachable!()
}

fn whole_maps_are_made_or_not<K: Numbered>() {
    for all_after in [false, true] {
        let before = held();
        let tally = Tally::default();
        let map: Map<K, Counted> = map_of(&tally, 200);
        let copy = refuse_each(all_after, || map.try_clone(), || tally.there() == 200);
        assert!(copy == map && tally.there() == 400);
        drop(copy);
        let pairs = || (0..200).map(|number| (K::of(number), tally.value(number)));
        // Making a text allocates memory that can't be made to fail.
        if std::mem::size_of::<K>() == 8 {
            let made = refuse_each(all_after, || Map::try_from_iter(pairs()), || tally.there() == 200);
            assert!(made == map);
        }
        let map = std::cell::RefCell::new(map);
        refuse_each(all_after, || map.borrow_mut().reserve(5000), || map.borrow().len() == 200);
        refuse_each(all_after, || map.borrow_mut().shrink_to_fit(), || map.borrow().len() == 200);
        refuse_each(all_after, || map.borrow_mut().shrink_to(1000), || map.borrow().len() == 200);
        assert!(map.into_inner() == map_of(&tally, 200));
        // Without a pair nothing is allocated.
        for fill in [0, 1] {
            let mut empty: Map<K, Counted> = Map::with_capacity(5000);
            empty.extend((0..fill).map(|number| (K::of(number), tally.value(number))));
            empty.retain(|_, _| false);
            let (blocks, capacity) = (held(), empty.capacity());
            assert_eq!(granting(0, all_after, || empty.shrink_to(100)), (Ok(()), 0));
            assert!(capacity > 100 && empty.capacity() == 100 && held() <= blocks);
        }
        drop(tally);
        assert_eq!(held(), before);
    }
}

#[test]
fn whole_maps_of_words_are_made_or_not() {
    whole_maps_are_made_or_not::<u64>();
}

#[test]
fn whole_maps_of_texts_are_made_or_not() {
    whole_maps_are_made_or_not::<String>();
}

#[test]
fn a_set_loses_no_key() {
    for all_after in [false, true] {
        let before = held();
        let mut set = Set::new();
        let mut failed = 0;
        for number in 0..200u64 {
            for granted in 0.. {
                let key = String::of(number);
                let (answer, refused) = granting(granted, all_after, || match number % 3 {
                    0 => set.insert(key),
                    1 => set.replace(key).map(|earlier| earlier.is_none()),
                    _ => set.get_or_insert(key).map(|_| true),
                });
                match answer {
                    Ok(was_absent) => assert!(was_absent),
                    Err(NoMemory) => assert!(refused > 0),
                }
                failed += answer.is_err() as usize;
                assert_eq!((set.len(), set.iter().count()), (number as usize + answer.is_ok() as usize, set.len()));
                if answer.is_ok() {
                    break;
                }
            }
            let (first, again) = (String::of(0), String::of(number));
            let (answer, _) = granting(0, true, || (set.insert(first), set.replace(again).map(|key| key.is_some())));
            assert_eq!(answer, (Ok(false), Ok(true)));
        }
        assert!(failed >= 200 && (0..200).all(|number| set.contains(&String::of(number))));
        drop(set);
        assert_eq!(held(), before);
    }
}

/// Puts pairs into a small cache, each with one more allocation granted until none fails, and compares the contents
/// after each call.
fn a_cache_loses_nothing<K: Numbered>() {
    for all_after in [false, true] {
        let before = held();
        let tally = Tally::default();
        let mut cache: Cache<K, Counted> = refuse_each(all_after, || Cache::with_seed(128, Seed::FIXED), || true);
        let mut std = BTreeMap::new();
        let (mut failed, mut evicted) = (0, 0);
        for number in 0..600 {
            for granted in 0.. {
                let (key, value) = (K::of(number), tally.value(number));
                let (answer, refused) = granting(granted, all_after, || match number % 4 {
                    0 => cache.put(key, value).map_err(|NoMemory| None),
                    1 => cache.try_put(key, value).map_err(|error| Some(error.into_pair())),
                    2 => cache.try_insert(key, value).map_err(|error| Some(error.into_pair())),
                    // The pair that is evicted for it isn't returned.
                    _ => cache.get_or_insert_with(key, || value).map(|_| None).map_err(|NoMemory| None),
                });
                let is_in = answer.is_ok();
                match answer {
                    Ok(gone) => {
                        std.insert(K::of(number), number);
                        evicted += gone.is_some() as usize;
                        if number % 4 == 3 {
                            std.retain(|key, _| cache.contains(key));
                        }
                        if let Some((key, value)) = gone {
                            assert_eq!(std.remove(&key), Some(value.number));
                        }
                    }
                    Err(back) => {
                        assert!(refused > 0 && back.is_none_or(|(key, value)| key == K::of(number) && value.number == number));
                        failed += 1;
                    }
                }
                assert_eq!((cache.len(), tally.there()), (std.len(), std.len() as isize));
                assert!(cache.iter().all(|(key, value)| std.get(key) == Some(&value.number)));
                if is_in {
                    break;
                }
            }
            // A key that is present allocates nothing.
            let (key, value) = (K::of(number), tally.value(number));
            let (answer, _) = granting(0, true, || cache.put(key, value));
            assert_eq!(answer.unwrap().map(|(key, value)| (key, value.number)), Some((K::of(number), number)));
        }
        assert!(failed >= 600 && evicted > 100);
        drop((cache, std, tally));
        assert_eq!(held(), before);
    }
}

#[test]
fn a_cache_of_words_loses_nothing() {
    a_cache_loses_nothing::<u64>();
}

#[test]
fn a_cache_of_texts_loses_nothing() {
    a_cache_loses_nothing::<String>();
}

#[test]
fn a_trait_that_cannot_fail_ends_as_stds_do() {
    const NAME: &str = "a_trait_that_cannot_fail_ends_as_stds_do";
    if std::env::var_os("BUCKET_TEST_ABORTS").is_some() {
        let mut map: Map<u64, u64> = Map::new();
        granting(0, true, || map.extend([(1, 2)]));
        return;
    }
    let mut again = Command::new(std::env::current_exe().unwrap());
    let output = again.args(["--exact", NAME, "--nocapture"]).env("BUCKET_TEST_ABORTS", "1").output().unwrap();
    assert!(!output.status.success());
    assert!(String::from_utf8_lossy(&output.stderr).contains("memory allocation of"), "{output:?}");
}

/// Pairs come in the order of the slots. With the same seed they would collide in the first buckets of a growing
/// table, whose overflow chains are allocations.
fn copies_ask_for_no_more_than_fillings<K: Numbered>(seed: Option<Seed>) {
    let empty = || seed.map_or(Map::new(), Map::with_seed);
    let mut map = empty();
    let filling = asked(|| {
        for number in 0..3000 {
            map.insert(K::of(number), number).unwrap();
        }
    });
    // A text key is an allocation of its own, as in the original map.
    let pairs = || map.iter().map(|(key, value)| (key.clone(), *value));
    let (mut to, mut one, mut third) = (empty(), empty(), empty());
    one.insert(K::of(4000), 1).unwrap();
    let keys: Set<K> = map.keys().cloned().collect();
    let same = keys.clone();
    assert!(asked(|| drop(map.clone())) < filling);
    assert!(asked(|| to.extend(pairs())) < filling);
    // Like std's, it reserves for half of them if there are others.
    assert!(asked(|| one.extend(pairs())) < filling + 250);
    assert!(asked(|| drop(pairs().collect::<Map<_, _>>())) < filling);
    assert!(asked(|| drop(&keys | &same)) < filling);
    assert!(asked(|| drop(&keys & &same)) < filling + 200);
    assert!(to == map && one.len() == 3001);
    if seed.is_none() {
        let looping = asked(|| {
            for (key, value) in pairs() {
                third.insert(key, value).unwrap();
            }
        });
        assert!(looping < filling + 200);
    }
}

#[test]
fn a_copy_asks_for_no_more_than_the_filling_did() {
    for seed in [None, Some(Seed::FIXED), Some(Seed::from_bytes([7; 16]))] {
        copies_ask_for_no_more_than_fillings::<u64>(seed);
        copies_ask_for_no_more_than_fillings::<String>(seed);
    }
}
