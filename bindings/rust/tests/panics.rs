//! Closures and values that panic: nothing is dropped twice, nothing is leaked, and the collection stays usable.

mod common;

use bucket::{Cache, Map, Set};
use common::{Counted, Tally};
use std::panic::{catch_unwind, AssertUnwindSafe};

/// Makes a call that panics, or whose result panics when it is dropped, and returns the message.
fn panicking<T>(call: impl FnOnce() -> T) -> String {
    match catch_unwind(AssertUnwindSafe(|| drop(call()))) {
        Ok(()) => panic!("the call doesn't panic"),
        Err(why) => match why.downcast::<String>() {
            Ok(text) => *text,
            Err(why) => why.downcast_ref::<&str>().unwrap().to_string(),
        },
    }
}

/// A map of 200 values, some of which panic when they are dropped.
fn with_panics(tally: &Tally, panics: &[u64]) -> Map<u64, Counted> {
    (0..200).map(|key| (key, if panics.contains(&key) { tally.panicking(key) } else { tally.value(key) })).collect()
}

/// A map holds these values, each once, and accepts more.
fn is_whole(map: &mut Map<u64, Counted>, tally: &Tally, len: usize) {
    assert_eq!((map.len(), map.iter().count(), tally.there()), (len, len, len as isize));
    assert!(map.iter().all(|(key, value)| *key == value.number && map.get(key).is_some()));
    for key in 1000..2000 {
        assert!(map.insert(key, tally.value(key)).unwrap().is_none());
    }
    for key in 1000..2000 {
        assert_eq!(map.remove(&key).map(|value| value.number), Some(key));
    }
    assert_eq!(map.len(), len);
}

/// The values that panic: all, some, or one.
const PANICS: [&[u64]; 4] = [&[0], &[199], &[3, 70, 71, 150], &[0, 1, 2, 197, 198, 199]];

#[test]
fn a_map_drops_the_values_beside_those_that_panic() {
    for panics in PANICS {
        let ends: [fn(Map<u64, Counted>); 6] = [
            drop,
            |mut map| map.clear(),
            |map| drop(map.into_iter()),
            |mut map| drop(map.drain()),
            |map| drop(map.into_keys()),
            |mut map| map.retain(|_, _| false),
        ];
        for end in ends {
            let tally = Tally::default();
            let map = with_panics(&tally, panics);
            let dropped = tally.dropped();
            assert!(panicking(|| end(map)).ends_with("panics when dropped"));
            assert_eq!((tally.there(), tally.dropped() - dropped), (0, 200));
        }
    }
}

#[test]
fn a_map_goes_on_after_a_clearing_that_panics() {
    let tally = Tally::default();
    let mut map = with_panics(&tally, &[3, 70]);
    panicking(|| map.clear());
    is_whole(&mut map, &tally, 0);
    map.extend(with_panics(&tally, &[5]));
    panicking(|| drop(map.drain()));
    is_whole(&mut map, &tally, 0);
    map.extend(with_panics(&tally, &[6, 7]));
    panicking(|| map.retain(|key, _| key % 2 == 0));
    map.get_mut(&6).unwrap().number = 6;
    assert_eq!((map.len(), tally.there()), (100, 100));
    panicking(|| map.remove(&6));
    is_whole(&mut map, &tally, 99);
    map.insert(6, tally.panicking(6)).unwrap();
    panicking(|| drop(map.insert(6, tally.value(6))));
    is_whole(&mut map, &tally, 100);
}

#[test]
fn a_closure_of_retain_that_panics_loses_nothing() {
    for at in [0, 1, 99, 199] {
        let tally = Tally::default();
        let mut map = with_panics(&tally, &[]);
        let (mut asked, mut refused) = (0, 0);
        let said = panicking(|| {
            map.retain(|key, _| {
                assert!(asked < at, "the closure panics");
                asked += 1;
                refused += (key % 2 == 0) as usize;
                key % 2 == 1
            })
        });
        assert_eq!((&said[..], asked), ("the closure panics", at));
        // Those for which it returned `false` were removed.
        is_whole(&mut map, &tally, 200 - refused);
    }
    // It panics, and so does a value for which it returned `false`.
    let tally = Tally::default();
    let mut map: Map<u64, Counted> = (0..200).map(|key| (key, tally.panicking(key))).collect();
    let mut asked = 0;
    panicking(|| {
        map.retain(|_, _| {
            asked += 1;
            assert!(asked < 50);
            false
        })
    });
    assert_eq!((map.len(), tally.there()), (151, 151));
    // Each of its values panics, and each is dropped.
    panicking(|| drop(map));
    assert_eq!(tally.there(), 0);
}

#[test]
fn a_closure_of_extract_if_that_panics_loses_nothing() {
    for at in [0, 1, 99, 199] {
        let tally = Tally::default();
        let mut map = with_panics(&tally, &[]);
        let mut asked = 0;
        let mut taken = map.extract_if(|_, _| {
            asked += 1;
            assert!(asked != at + 1, "the closure panics");
            true
        });
        let mut count = 0;
        assert_eq!(panicking(|| taken.by_ref().for_each(|_| count += 1)), "the closure panics");
        assert_eq!(count, at);
        // It is called for the others afterwards, as std's is.
        assert_eq!(taken.by_ref().take(20).count(), 20.min(199 - at));
        drop(taken);
        is_whole(&mut map, &tally, 200 - at - 20.min(199 - at));
    }
}

#[test]
fn a_taken_value_that_panics_loses_nothing() {
    let tally = Tally::default();
    let mut map = with_panics(&tally, &[7]);
    panicking(|| map.extract_if(|_, _| true).for_each(drop));
    let left = map.len();
    assert!(!map.contains_key(&7));
    is_whole(&mut map, &tally, left);
    assert_eq!(map.extract_if(|_, _| true).count(), left);
    is_whole(&mut map, &tally, 0);
    // The same for the iterators that own the pairs: the rest is dropped with them.
    panicking(|| with_panics(&tally, &[7, 8]).into_iter().for_each(drop));
    panicking(|| with_panics(&tally, &[7, 8]).into_values().for_each(drop));
    panicking(|| map.drain().chain(with_panics(&tally, &[9]).drain()).for_each(drop));
    is_whole(&mut map, &tally, 0);
}

#[test]
fn a_closure_of_an_entry_that_panics_changes_nothing() {
    let tally = Tally::default();
    let mut map = with_panics(&tally, &[]);
    map.remove(&70);
    panicking(|| map.entry(70).or_insert_with(|| panic!("no value")).is_ok());
    panicking(|| map.entry(70).or_insert_with_key(|key| panic!("no value for {key}")).is_ok());
    panicking(|| map.entry(71).and_modify(|_| panic!("no change")).or_insert_with(|| unreachable!()).is_ok());
    is_whole(&mut map, &tally, 199);
    panicking(|| map.entry(71).insert_entry(tally.panicking(71)).unwrap().remove());
    is_whole(&mut map, &tally, 198);
}

#[test]
fn an_iterator_that_panics_leaves_what_it_gave() {
    let tally = Tally::default();
    let mut map = Map::new();
    let pairs = (0..).map(|key| (key, tally.value(if key < 100 { key } else { panic!("no more") })));
    assert_eq!(panicking(|| map.extend(pairs)), "no more");
    is_whole(&mut map, &tally, 100);
}

#[test]
fn a_copy_that_panics_is_dropped() {
    struct Copied<'a>(Counted, &'a Tally);
    impl Clone for Copied<'_> {
        fn clone(&self) -> Self {
            assert!(self.0.number != 70 && self.1.there() < 300, "no copy");
            Copied(self.0.clone(), self.1)
        }
    }
    let tally = Tally::default();
    let map: Map<u64, Copied> = (0..200).map(|key| (key, Copied(tally.value(key), &tally))).collect();
    assert_eq!(panicking(|| map.clone()), "no copy");
    assert_eq!(tally.there(), 200);
    drop(map);
    assert_eq!(tally.there(), 0);
}

#[test]
fn a_comparison_that_panics_changes_nothing() {
    struct Incomparable;
    impl PartialEq for Incomparable {
        fn eq(&self, _: &Incomparable) -> bool {
            panic!("no comparison")
        }
    }
    let (a, b) = (Map::from([(1, Incomparable)]), Map::from([(1, Incomparable)]));
    assert_eq!(panicking(|| a == b), "no comparison");
    assert_eq!((a.len(), b.len()), (1, 1));
}

#[test]
fn a_cache_goes_on_after_panics() {
    let tally = Tally::default();
    let mut cache = Cache::new(64).unwrap();
    for key in 0..1000u64 {
        let value = if key % 10 == 0 { tally.panicking(key) } else { tally.value(key) };
        // The evicted value panics when the caller drops it; the new one is in the cache.
        let _ = catch_unwind(AssertUnwindSafe(|| drop(cache.put(key, value))));
        assert!(cache.contains(&key));
        assert_eq!(cache.len() as isize, tally.there());
    }
    for key in 1000..2000u64 {
        let make = || tally.panicking(key);
        let _ = catch_unwind(AssertUnwindSafe(|| cache.get_or_insert_with(key, make).is_ok()));
        assert!(cache.contains(&key));
        assert_eq!(cache.len() as isize, tally.there());
    }
    panicking(|| cache.get_or_insert_with(5000, || panic!("no value")).is_ok());
    assert_eq!(cache.len() as isize, tally.there());
    panicking(|| cache.retain(|key, _| key % 2 == 0));
    assert!(cache.len() as isize == tally.there() && cache.iter().all(|(key, _)| key % 2 == 0));
    panicking(|| cache.clear());
    assert_eq!((cache.len(), tally.there()), (0, 0));
    cache.put(1, tally.panicking(1)).unwrap();
    panicking(|| drop(cache));
    assert_eq!(tally.there(), 0);
}

#[test]
fn a_closure_of_a_set_that_panics_loses_no_key() {
    let mut set: Set<String> = (0..200).map(|number| number.to_string()).collect();
    let mut asked = 0;
    let mut panics = |_: &String| {
        asked += 1;
        assert!(asked % 50 > 0, "the closure panics");
        false
    };
    panicking(|| set.retain(&mut panics));
    assert_eq!((set.len(), set.iter().count()), (151, 151));
    panicking(|| set.extract_if(&mut panics).count());
    assert_eq!((set.len(), set.iter().filter(|key| set.contains(*key)).count()), (151, 151));
}

#[test]
fn a_leaked_iterator_leaks_its_pairs_alone() {
    let tally = Tally::default();
    let mut map = with_panics(&tally, &[]);
    let mut drain = map.drain();
    assert!(drain.next().is_some());
    std::mem::forget(drain);
    assert_eq!((map.len(), tally.there()), (0, 199));
    map.insert(1, tally.value(1)).unwrap();
    let _ = map.extract_if(|_, _| true);
    let _ = map.iter_mut().next();
    assert_eq!((map.len(), map.remove(&1).map(|value| value.number)), (1, Some(1)));
}
