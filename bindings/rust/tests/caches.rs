//! Caches evict, and return whatever they remove.

mod common;

use bucket::{Cache, Reason, Seed};
use common::Tally;
use std::collections::BTreeMap;

#[test]
fn a_cache_is_a_map_while_it_has_room() {
    let mut cache = Cache::new(1000).unwrap();
    assert_eq!((cache.cap(), cache.len(), cache.is_empty()), (1024, 0, true));
    assert_eq!(cache.put("Ann".to_string(), 30), Ok(None));
    assert_eq!(cache.put("Bob".to_string(), 20), Ok(None));
    assert_eq!(cache.put("Ann".to_string(), 31), Ok(Some(("Ann".to_string(), 30))));
    assert_eq!(cache.get("Ann"), Some(&31));
    *cache.get_mut("Ann").unwrap() += 1;
    *cache.peek_mut("Ann").unwrap() += 1;
    assert_eq!((cache.peek("Ann"), cache.peek("Cid"), cache.contains("Bob")), (Some(&33), None, true));
    assert_eq!(cache.get_key_value("Bob"), Some((&"Bob".to_string(), &20)));
    let error = cache.try_insert("Ann".to_string(), 0).unwrap_err();
    assert_eq!((error.reason, error.into_pair()), (Reason::Present, ("Ann".to_string(), 0)));
    assert_eq!(cache.try_put("Ann".to_string(), 34), Ok(Some(("Ann".to_string(), 33))));
    assert_eq!(cache.get_or_insert_with("Ann".to_string(), || unreachable!()), Ok(&mut 34));
    assert_eq!(cache.get_or_insert_with("Cid".to_string(), || 40), Ok(&mut 40));
    assert_eq!((cache.remove_entry("Cid"), cache.pop("Ann"), cache.remove("Ann")), (Some(("Cid".into(), 40)), Some(34), None));
    assert_eq!(format!("{cache:?} {:?}", cache.iter()), "{\"Bob\": 20} [(\"Bob\", 20)]");
    cache.iter_mut().for_each(|(_, age)| *age += 1);
    assert_eq!(cache.drain().collect::<Vec<_>>(), [("Bob".to_string(), 21)]);
    assert_eq!((cache.len(), cache.put("Bob".to_string(), 1), cache.len()), (0, Ok(None), 1));
    cache.clear();
    assert_eq!((cache.len(), cache.peek("Bob"), cache.cap()), (0, None, 1024));
    cache.extend([("Dan".to_string(), 1), ("Eve".to_string(), 2)]);
    cache.retain(|_, age| *age == 2);
    assert_eq!((&cache).into_iter().count() + (&mut cache).into_iter().count(), 2);
    assert_eq!(cache.into_iter().collect::<Vec<_>>(), [("Eve".to_string(), 2)]);
}

#[test]
fn what_leaves_a_cache_is_handed_out() {
    let tally = Tally::default();
    for (minimum, maximum) in [(0, 0), (0, 64), (64, 64), (0, 1000), (2000, 1000)] {
        let mut cache = Cache::with_capacity_and_seed(minimum, maximum, Seed::random()).unwrap();
        let mut there = BTreeMap::new();
        let mut evicted = 0;
        for number in 0..5000u64 {
            if let Some((key, value)) = cache.put(number, tally.value(number)).unwrap() {
                assert_eq!((key, there.remove(&key)), (value.number, Some(())));
                evicted += 1;
            }
            there.insert(number, ());
            assert!(cache.contains(&number) && cache.len() <= cache.cap());
            assert_eq!((cache.len(), tally.there()), (there.len(), there.len() as isize));
        }
        assert!(evicted > 0 && evicted + cache.len() == 5000);
        assert!(cache.iter().all(|(key, value)| there.contains_key(key) && value.number == *key));
        // Most slots are taken, however the keys are hashed.
        assert!(cache.len() > cache.cap() * 3 / 4);
        drop(cache);
        assert_eq!(tally.there(), 0);
    }
}

/// Puts keys into a cache of 64 slots, reads the first of them by `read` after each, and returns whether it stayed.
fn stays(read: impl Fn(&mut Cache<u64, u64>)) -> bool {
    let mut cache = Cache::with_capacity_and_seed(64, 64, Seed::FIXED).unwrap();
    for number in 0..1000 {
        cache.put(number, number).unwrap();
        read(&mut cache);
    }
    cache.contains(&0)
}

#[test]
fn a_pair_that_is_touched_stays() {
    assert!(stays(|cache| assert_eq!(cache.get(&0), Some(&0))));
    assert!(stays(|cache| assert_eq!(cache.get_mut(&0), Some(&mut 0))));
    assert!(stays(|cache| assert_eq!(cache.put(0, 0), Ok(Some((0, 0))))));
    assert!(stays(|cache| assert_eq!(cache.get_or_insert_with(0, || 1), Ok(&mut 0))));
    assert!(!stays(|cache| assert_ne!(cache.peek(&0), Some(&1))));
    assert!(!stays(|cache| assert!(cache.contains(&0) || cache.len() > 30)));
    assert!(!stays(|cache| assert_ne!(cache.peek_mut(&0), Some(&mut 1))));
    assert!(!stays(|cache| assert!(cache.iter().count() > 0)));
}

#[test]
fn a_cache_says_how_many_slots_it_may_have() {
    for (maximum, cap) in [(0, 64), (64, 64), (65, 128), (1 << 20, 1 << 20), ((1 << 20) + 1, 1 << 21)] {
        assert_eq!(Cache::<u64, ()>::new(maximum).map(|cache| cache.cap()), Ok(cap));
    }
}

#[test]
fn a_cache_goes_to_another_thread() {
    let mut cache = Cache::new(100).unwrap();
    cache.put(vec![1u8], "one".to_string()).unwrap();
    let there = std::thread::spawn(move || cache.get(&[1u8][..]).cloned());
    assert_eq!(there.join().ok(), Some(Some("one".to_string())));
}
