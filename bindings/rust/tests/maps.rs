//! Maps behave as std's do.

use bucket::map::{self, Drain, Entry, IntoIter, IterMut};
use bucket::{Cache, Key, Map, NoMemory, Reason, Seed, Set};
use std::collections::{BTreeMap, HashMap};
use std::fmt::Debug;
use std::panic::{RefUnwindSafe, UnwindSafe};
use std::rc::Rc;
use std::sync::{Arc, Mutex};

fn sorted<T: Ord>(items: impl IntoIterator<Item = T>) -> Vec<T> {
    let mut items: Vec<T> = items.into_iter().collect();
    items.sort();
    items
}

/// Each of these keys differs from the others, is found by itself, and is returned unchanged.
fn are_keys<K: Key + Clone + Ord + Debug>(keys: &[K]) {
    let mut map = Map::new();
    for (place, key) in keys.iter().enumerate() {
        assert_eq!(map.insert(key.clone(), place), Ok(None), "{key:?}");
    }
    assert_eq!(map.len(), keys.len());
    for (place, key) in keys.iter().enumerate() {
        assert_eq!(map.get(key), Some(&place), "{key:?}");
        assert_eq!(map.get_key_value(key), Some((key, &place)));
    }
    assert_eq!(map.try_clone().as_ref(), Ok(&map));
    assert_eq!(sorted(map.keys()), sorted(keys));
    for key in keys {
        assert_eq!(map.remove_entry(key).map(|(key, _)| key).as_ref(), Some(key));
    }
    assert!(map.is_empty());
}

#[test]
fn integers_texts_and_bytes_are_keys() {
    are_keys(&[0u8, 1, 255]);
    are_keys(&[0u16, 255, 256, u16::MAX]);
    are_keys(&[0, 1, u32::MAX]);
    are_keys(&[0, u64::MAX, 1 << 63, 1 << 32]);
    are_keys(&[0, usize::MAX]);
    are_keys(&[0i8, -1, i8::MIN, i8::MAX]);
    are_keys(&[0i16, -1, i16::MIN, i16::MAX]);
    are_keys(&[0, -1, i32::MIN, i32::MAX]);
    are_keys(&[0, -1, i64::MIN, i64::MAX]);
    are_keys(&[0, -1, isize::MIN, isize::MAX]);
    are_keys(&[false, true]);
    are_keys(&['\0', 'a', '\u{10ffff}']);
    are_keys(&["", "a", "ab", "\0", "ä"].map(String::from));
    are_keys(&["", "a", "ab", "\0", "ä"].map(Box::<str>::from));
    are_keys(&["", "a", "ab", "\0", "ä"].map(Rc::<str>::from));
    are_keys(&["", "a", "ab", "\0", "ä"].map(Arc::<str>::from));
    are_keys(&["", "a", "ab", "\0", "ä"]);
    are_keys(&[vec![], vec![0u8], vec![0, 0], vec![255; 1000]]);
    are_keys(&[vec![], vec![0u8], vec![0, 0]].map(Vec::into_boxed_slice));
    are_keys(&[&b""[..], b"\xff", b"\xff\0"]);
    are_keys(&[[0u8; 4], [1; 4]]);
    are_keys(&[&7u64, &8]);
}

#[test]
fn texts_are_looked_up_by_what_they_lend() {
    let mut by_string = Map::from([("Ann".to_string(), 30)]);
    assert_eq!((by_string.get("Ann"), by_string.get(&"Ann".to_string())), (Some(&30), Some(&30)));
    assert_eq!((by_string["Ann"], by_string.contains_key("Bob")), (30, false));
    *by_string.get_mut("Ann").unwrap() += 1;
    assert_eq!(by_string.remove("Ann"), Some(31));
    let by_bytes = Map::from([(vec![1u8, 2], 'a')]);
    assert_eq!((by_bytes.get(&[1u8, 2][..]), by_bytes.get(&vec![1u8])), (Some(&'a'), None));
    let by_box: Map<Box<[u8]>, char> = Map::from([(vec![1u8, 2].into(), 'a')]);
    assert_eq!(by_box.get(&[1u8, 2][..]), Some(&'a'));
    let by_array = Map::from([([1u8, 2], 'a')]);
    assert_eq!((by_array.get(&[1u8, 2]), by_array.get(&[1u8][..])), (Some(&'a'), None));
}

#[test]
fn a_map_that_nothing_was_put_in_answers() {
    let mut map: Map<u64, u64> = Map::new();
    assert_eq!((map.len(), map.is_empty(), map.capacity()), (0, true, 0));
    assert_eq!((map.get(&1), map.get_key_value(&1)), (None, None));
    assert_eq!((map.get_mut(&1).is_none(), map.remove(&1)), (true, None));
    assert!(!map.contains_key(&1) && map.get_disjoint_mut([&1, &2]) == [None, None]);
    assert_eq!((map.iter().next(), map.keys().next()), (None, None));
    assert!(map.iter_mut().next().is_none() && map.drain().next().is_none());
    assert_eq!((map.keys().len(), map.values().len(), map.values_mut().len()), (0, 0, 0));
    map.retain(|_, _| unreachable!());
    assert_eq!(map.extract_if(|_, _| unreachable!()).next(), None);
    map.clear();
    assert_eq!((map.shrink_to_fit(), map.shrink_to(10)), (Ok(()), Ok(())));
    assert_eq!((format!("{map:?}"), map.clone()), ("{}".to_string(), Map::default()));
    assert!(matches!(map.entry(1), Entry::Vacant(_)));
    assert_eq!(map.into_iter().next(), None);
}

fn gives_nothing<T: Debug, I: Default + ExactSizeIterator<Item = T> + Debug>() {
    let mut nothing = I::default();
    assert_eq!((nothing.len(), nothing.size_hint(), format!("{nothing:?}")), (0, (0, Some(0)), "[]".to_string()));
    assert!(nothing.next().is_none() && nothing.next().is_none() && I::default().count() == 0);
}

#[test]
fn an_iterator_of_no_collection_gives_nothing() {
    gives_nothing::<_, map::Iter<String, Rc<str>>>();
    gives_nothing::<_, map::IterMut<String, Rc<str>>>();
    gives_nothing::<_, map::IntoIter<String, Rc<str>>>();
    gives_nothing::<_, map::Keys<String, Rc<str>>>();
    gives_nothing::<_, map::Values<String, Rc<str>>>();
    gives_nothing::<_, map::ValuesMut<String, Rc<str>>>();
    gives_nothing::<_, map::IntoKeys<String, Rc<str>>>();
    gives_nothing::<_, map::IntoValues<String, Rc<str>>>();
    gives_nothing::<_, bucket::set::Iter<String>>();
    gives_nothing::<_, bucket::set::IntoIter<String>>();
    assert_eq!(map::Iter::<u64, u64>::default().clone().next(), None);
}

#[test]
fn insertions_replace_values_and_keep_keys() {
    let (first, second) = (Rc::<str>::from("Ann"), Rc::<str>::from("Ann"));
    let mut map = Map::new();
    assert_eq!(map.insert(first.clone(), 30), Ok(None));
    assert_eq!(map.insert(second.clone(), 31), Ok(Some(30)));
    assert!(Rc::ptr_eq(map.get_key_value("Ann").unwrap().0, &first));
    assert_eq!((Rc::strong_count(&first), Rc::strong_count(&second)), (2, 1));
    let error = map.try_insert(second.clone(), 32).unwrap_err();
    assert!(Rc::ptr_eq(&error.key, &second) && (error.value, error.reason) == (32, Reason::Present));
    assert_eq!(map.len(), 1);
}

#[test]
fn many_pairs_come_and_go() {
    for seed in [Seed::FIXED, Seed::random()] {
        let mut map = Map::with_seed(seed);
        for round in 0..3 {
            for number in 1..2000u64 {
                assert_eq!(map.insert(number, number * round), Ok(None));
                assert_eq!(map.get(&number), Some(&(number * round)));
            }
            for number in 2000..4000 {
                assert!(!map.contains_key(&number));
            }
            for number in (1..2000).rev() {
                assert_eq!(map.remove(&number), Some(number * round));
                assert!(!map.contains_key(&number) && (number == 1 || map.contains_key(&1)));
            }
            assert!(map.is_empty());
        }
    }
}

#[test]
fn values_of_any_type_are_lent_and_stay_where_they_are() {
    let mut map: Map<u32, Box<dyn Fn(i32) -> i32>> = Map::new();
    map.insert(1, Box::new(|number| number + 1)).unwrap();
    assert_eq!(map[&1](6), 7);
    let mut lists: Map<String, Vec<String>> = Map::new();
    lists.entry("a".into()).or_default().unwrap().push("b".into());
    let address = lists.get("a").unwrap() as *const Vec<String>;
    lists.extend((0..5000).map(|number| (number.to_string(), vec![])));
    assert_eq!((lists.get("a").unwrap() as *const Vec<String>, &lists["a"][0][..]), (address, "b"));
    // A zero-sized value, a large one, and an aligned one.
    let units: Map<u8, ()> = (0..=255).map(|key| (key, ())).collect();
    assert_eq!(units.len(), 256);
    let large: Map<u8, [u64; 1000]> = (0..10).map(|key| (key, [u64::from(key); 1000])).collect();
    assert!((0..10).all(|key| large[&key] == [u64::from(key); 1000]));
    #[repr(align(64))]
    struct Aligned(u8);
    let aligned: Map<u8, Aligned> = (0..100).map(|key| (key, Aligned(key))).collect();
    assert!(aligned.iter().all(|(key, value)| *key == value.0 && (value as *const Aligned).addr() % 64 == 0));
}

#[test]
fn iterators_say_how_many_are_left_and_print_them() {
    let mut map: Map<u64, u64> = (0..200).map(|key| (key, key)).collect();
    let mut iter = map.iter();
    assert_eq!((iter.len(), iter.next().is_some(), iter.len(), iter.size_hint()), (200, true, 199, (199, Some(199))));
    assert_eq!((iter.clone().count(), iter.by_ref().count(), iter.next(), iter.next()), (199, 199, None, None));
    let mut iter = map.iter_mut();
    assert_eq!((iter.next().is_some(), iter.len(), iter.by_ref().count(), iter.next()), (true, 199, 199, None));
    assert_eq!((map.keys().len(), map.values().clone().count(), map.values_mut().len()), (200, 200, 200));
    let mut taken = map.extract_if(|key, _| key % 2 == 0);
    assert_eq!((taken.size_hint(), taken.by_ref().count(), taken.next()), ((0, Some(200)), 100, None));
    let mut iter = map.clone().into_iter();
    assert_eq!((iter.next().is_some(), iter.len(), iter.by_ref().count(), iter.next()), (true, 99, 99, None));
    let mut drain = map.drain();
    assert_eq!((drain.next().is_some(), drain.len(), drain.by_ref().count(), drain.next()), (true, 99, 99, None));
    drop(drain);

    map.extend([(1, 2)]);
    assert_eq!(format!("{:?} {:?} {:?}", map.iter(), map.keys(), map.values()), "[(1, 2)] [1] [2]");
    assert_eq!((format!("{:?}", map.iter_mut()), format!("{:?}", map.values_mut())), ("[(1, 2)]".into(), "[2]".into()));
    assert_eq!(format!("{:?} {:?}", map.clone().drain(), map.clone().into_iter()), "[(1, 2)] [(1, 2)]");
    assert_eq!(format!("{:?} {:?}", map.clone().into_keys(), map.clone().into_values()), "[1] [2]");
    assert_eq!(format!("{:?} {map:?}", map.clone().extract_if(|_, _| true)), "ExtractIf { .. } {1: 2}");
    assert_eq!(format!("{:?}", map.entry(1)), "Entry(OccupiedEntry { key: 1, value: 2, .. })");
    assert_eq!(format!("{:?}", map.entry(3)), "Entry(VacantEntry(3))");
}

#[test]
fn each_way_through_a_map_gives_each_pair_once() {
    let mut map: Map<u64, u64> = (0..3000).map(|key| (key, key * 2)).collect();
    let all: Vec<(u64, u64)> = (0..3000).map(|key| (key, key * 2)).collect();
    assert_eq!(sorted(map.iter().map(|(key, value)| (*key, *value))), all);
    assert_eq!(sorted((&map).into_iter().map(|(key, value)| (*key, *value))), all);
    for (key, value) in &mut map {
        *value += key;
    }
    map.values_mut().for_each(|value| *value += 1);
    map.iter_mut().for_each(|(key, value)| *value -= key + 1);
    assert_eq!(sorted(map.clone()), all);
    assert_eq!(sorted(map.keys().copied()), (0..3000).collect::<Vec<_>>());
    assert_eq!(map.values().sum::<u64>(), 3000 * 2999);
    assert_eq!(sorted(map.clone().into_keys()), (0..3000).collect::<Vec<_>>());
    assert_eq!(map.clone().into_values().sum::<u64>(), 3000 * 2999);
    assert_eq!(sorted(map.drain()), all);
    assert!(map.is_empty());
}

#[test]
fn maps_are_made_compared_and_copied() {
    let map = Map::from([(1, 'a'), (2, 'b'), (1, 'c')]);
    assert_eq!((map.len(), map[&1]), (2, 'c'));
    assert_eq!(map, Map::from_iter([(2, 'b'), (1, 'c')]));
    assert_ne!(map, Map::from([(2, 'b')]));
    assert_ne!(map, Map::from([(2, 'b'), (1, 'd')]));
    assert_ne!(map, Map::from([(2, 'b'), (3, 'c')]));
    let mut fixed = Map::with_capacity_and_seed(50, Seed::FIXED);
    fixed.extend(&map);
    assert_eq!((&fixed, fixed.clone()), (&map, map.clone()));
    let mut copy = fixed.clone();
    copy.insert(3, 'd').unwrap();
    assert_eq!((copy.len(), fixed.len()), (3, 2));
    let nested = Map::from([("a", Map::from([(1, 2)]))]);
    assert_eq!((nested["a"][&1], nested.clone()), (2, nested));
    let std: HashMap<_, _> = map.clone().into_iter().collect();
    assert_eq!(std.into_iter().collect::<Map<_, _>>(), map);
}

#[test]
#[should_panic(expected = "no entry found for key")]
fn an_index_of_an_absent_key_panics() {
    let _ = Map::from([(1, 'a')])[&2];
}

#[test]
fn entries_change_insert_and_remove() {
    let mut map = Map::from([(1, 10), (2, 20)]);
    assert_eq!(map.entry(1).key(), &1);
    match map.entry(1) {
        Entry::Vacant(_) => unreachable!(),
        Entry::Occupied(mut entry) => {
            *entry.get_mut() += 1;
            assert_eq!((*entry.key(), *entry.get(), entry.insert(100)), (1, 11, 11));
            *entry.into_mut() += 1;
        }
    }
    match map.entry(2) {
        Entry::Vacant(_) => unreachable!(),
        Entry::Occupied(entry) => assert_eq!(entry.remove_entry(), (2, 20)),
    }
    match map.entry(3) {
        Entry::Occupied(_) => unreachable!(),
        Entry::Vacant(entry) => {
            assert_eq!(entry.key(), &3);
            *entry.insert(30).unwrap() += 1;
        }
    }
    match map.entry(4) {
        Entry::Occupied(_) => unreachable!(),
        Entry::Vacant(entry) => assert_eq!(entry.into_key(), 4),
    }
    assert_eq!(map, Map::from([(1, 101), (3, 31)]));
    assert_eq!(map.entry(1).or_insert(7), Ok(&mut 101));
    assert_eq!(map.entry(4).or_insert_with(|| 40), Ok(&mut 40));
    assert_eq!(map.entry(5).or_insert_with_key(|key| key * 10), Ok(&mut 50));
    assert_eq!(map.entry(6).or_default(), Ok(&mut 0));
    assert_eq!(map.entry(6).and_modify(|value| *value += 1).or_insert(9), Ok(&mut 1));
    assert_eq!(map.entry(7).and_modify(|_| unreachable!()).or_insert(9), Ok(&mut 9));
    assert_eq!(map.entry(7).insert_entry(70).unwrap().remove(), 70);
    assert_eq!(*map.entry(8).insert_entry(80).unwrap().get(), 80);
    assert_eq!(map.entry(4).or_insert_with(|| unreachable!()), Ok(&mut 40));
    let there: BTreeMap<_, _> = map.into_iter().collect();
    assert_eq!(there, BTreeMap::from([(1, 101), (3, 31), (4, 40), (5, 50), (6, 1), (8, 80)]));
}

#[test]
fn several_values_are_lent_at_once_unless_they_are_one() {
    let mut map = Map::from([("a".to_string(), 1), ("b".to_string(), 2)]);
    let [Some(a), None, Some(b)] = map.get_disjoint_mut(["a", "x", "b"]) else { panic!() };
    std::mem::swap(a, b);
    assert_eq!((map["a"], map["b"]), (2, 1));
    assert_eq!(map.get_disjoint_mut(["x", "x"]), [None, None]);
    let twice = std::panic::catch_unwind(move || map.get_disjoint_mut(["a", "a"]).len());
    assert!(twice.is_err());
}

#[test]
fn what_is_kept_and_what_is_taken_is_asked_for_once() {
    let mut map: Map<u64, u64> = (0..1000).map(|key| (key, key)).collect();
    let mut asked = vec![];
    map.retain(|key, value| {
        asked.push(*key);
        *value += 1;
        key % 3 == 0
    });
    assert_eq!((sorted(asked), map.len()), ((0..1000).collect(), 334));
    assert!(map.iter().all(|(key, value)| key % 3 == 0 && *value == key + 1));

    let mut asked = 0;
    let taken: Vec<_> = map
        .extract_if(|key, _| {
            asked += 1;
            key % 2 == 0
        })
        .take(10)
        .collect();
    assert!(taken.len() == 10 && (10..334).contains(&asked));
    assert_eq!(map.len(), 324);
    assert!(taken.iter().all(|(key, value)| key % 6 == 0 && *value == key + 1 && !map.contains_key(key)));
    let _ = map.extract_if(|_, _| true);
    assert_eq!(map.len(), 324);
    assert_eq!(map.extract_if(|_, _| true).count(), 324);
    assert!(map.is_empty());
}

#[test]
fn room_is_made_and_given_back() {
    let mut map: Map<u64, u64> = Map::with_capacity(1000);
    assert!(map.capacity() >= 1000);
    map.insert(1, 2).unwrap();
    assert!(map.capacity() >= 1000);
    assert_eq!((map.reserve(5000), map.try_reserve(5000)), (Ok(()), Ok(())));
    assert!(map.capacity() >= 5001);
    assert_eq!((map.reserve(usize::MAX), map.try_reserve(1 << 60)), (Err(NoMemory), Err(NoMemory)));
    assert_eq!(map.shrink_to(100), Ok(()));
    assert!((100..5000).contains(&map.capacity()));
    assert_eq!((map.shrink_to_fit(), map[&1]), (Ok(()), 2));
    assert!(map.capacity() < 100);
    map.clear();
    let mut unused: Map<u64, u64> = Map::with_capacity(1000);
    assert_eq!((unused.shrink_to_fit(), unused.capacity()), (Ok(()), 0));
    let mut unused: Map<u64, u64> = Map::with_capacity(5000);
    for (least, capacity) in [(6000, 5000), (1000, 1000), (1000, 1000), (10, 10), (0, 0)] {
        assert_eq!((unused.shrink_to(least), unused.capacity()), (Ok(()), capacity));
    }
    // An empty map that has slots, with room that was reserved or requested at first.
    let mut reserved: Map<u64, u64> = Map::new();
    reserved.reserve(5000).unwrap();
    let mut emptied: Map<u64, u64> = Map::with_capacity(5000);
    emptied.insert(1, 2).unwrap();
    emptied.remove(&1);
    for mut empty in [reserved, emptied] {
        assert!(empty.capacity() > 5000);
        assert_eq!((empty.shrink_to(1000), empty.capacity()), (Ok(()), 1000));
        empty.insert(1, 2).unwrap();
        assert!((1000..5000).contains(&empty.capacity()) && empty[&1] == 2 && empty.len() == 1);
    }
    map.extend((0..100).map(|key| (key, key)));
    assert!(map.capacity() >= map.len() && map.len() == 100);
}

#[test]
fn a_map_goes_to_another_thread_and_threads_share_one_by_a_lock() {
    let mut map: Map<String, Vec<u64>> = (0..100).map(|key: u64| (key.to_string(), vec![key])).collect();
    let mut map = std::thread::spawn(move || {
        map.get_mut("7").unwrap().push(1);
        map
    })
    .join()
    .unwrap();
    assert_eq!((map.len(), map.remove("7")), (100, Some(vec![7, 1])));

    static SHARED: Mutex<Map<u64, String>> = Mutex::new(Map::with_seed(Seed::FIXED));
    std::thread::scope(|scope| {
        for thread in 0..4 {
            scope.spawn(move || {
                for number in 0..500 {
                    SHARED.lock().unwrap().insert(number * 4 + thread, number.to_string()).unwrap();
                }
            });
        }
    });
    assert_eq!(SHARED.lock().unwrap().len(), 2000);
}

#[test]
fn order_is_the_seeds() {
    let order = |seed: Option<Seed>| -> Vec<u64> {
        let mut map = seed.map_or_else(Map::new, Map::with_seed);
        map.extend((0..1000).map(|key| (key, ())));
        map.into_keys().collect()
    };
    assert!(order(None) != order(None));
    assert!(order(Some(Seed::from_bytes([7; 16]))) == order(Some(Seed::from_bytes([7; 16]))));
    let seeds = [Seed::random(), Seed::from_bytes([7; 16]), Seed::FIXED];
    assert_eq!(format!("{seeds:?}"), "[Seed(..), Seed(..), Seed(..)]");
}

#[test]
fn a_structure_of_collections_derives_what_stds_do() {
    #[derive(Debug, Default, Clone, PartialEq, Eq)]
    struct Shop {
        prices: Map<String, u64>,
        orders: Map<u32, Vec<String>>,
        closed: Set<u8>,
    }
    #[derive(Debug, Default)]
    struct Index<K, V> {
        places: Map<K, Vec<V>>,
        seen: Set<K>,
    }
    let mut shop = Shop::default();
    shop.prices.insert("tea".to_string(), 3).unwrap();
    assert_eq!((shop.clone(), shop == Shop::default()), (shop.clone(), false));
    assert_eq!(format!("{shop:?}"), "Shop { prices: {\"tea\": 3}, orders: {}, closed: {} }");
    let index = Index::<u64, f64>::default();
    assert!(index.places.is_empty() && index.seen.is_empty());
}

#[test]
fn auto_traits_are_those_of_the_pairs() {
    fn are_send<T: Send, U: Send, W: Send>() {}
    fn are_unwind_safe<T: UnwindSafe + RefUnwindSafe, U: UnwindSafe + RefUnwindSafe>() {}
    are_send::<Map<String, Vec<u8>>, Set<u64>, Cache<u64, Box<dyn Fn() + Send>>>();
    are_send::<IterMut<u64, u64>, IntoIter<u64, u64>, Drain<u64, u64>>();
    are_unwind_safe::<Map<String, Vec<u8>>, Cache<u64, u64>>();
    // Longer lifetimes of what is borrowed coerce to shorter ones.
    fn shorter<'a>(map: Map<&'static str, &'static str>, _: &'a str) -> Map<&'a str, &'a str> {
        map
    }
    assert!(shorter(Map::new(), "").is_empty());
}
