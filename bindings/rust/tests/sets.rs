//! Sets behave as std's do.

use bucket::{NoMemory, Seed, Set};
use std::collections::HashSet;
use std::rc::Rc;

fn sorted<T: Ord>(items: impl IntoIterator<Item = T>) -> Vec<T> {
    let mut items: Vec<T> = items.into_iter().collect();
    items.sort();
    items
}

#[test]
fn keys_are_in_or_not() {
    let mut set = Set::new();
    assert_eq!((set.len(), set.is_empty(), set.contains("a"), set.remove("a")), (0, true, false, false));
    assert_eq!((set.get("a"), set.iter().next()), (None, None));
    assert_eq!((set.insert("a".to_string()), set.insert("b".to_string())), (Ok(true), Ok(true)));
    assert_eq!((set.insert("a".to_string()), set.len()), (Ok(false), 2));
    assert_eq!((set.get("a"), set.contains("b")), (Some(&"a".to_string()), true));
    assert_eq!((set.remove("b"), set.take("a"), set.take("a")), (true, Some("a".to_string()), None));
    assert!(set.is_empty());
    set.clear();
    assert_eq!((set.shrink_to_fit(), set.reserve(usize::MAX), set.try_reserve(9)), (Ok(()), Err(NoMemory), Ok(())));
    assert!(set.capacity() >= 9 && set.shrink_to(9).is_ok());
}

#[test]
fn a_key_stays_until_it_is_replaced() {
    let keys: [Rc<str>; 3] = ["a", "a", "a"].map(Rc::from);
    let mut set = Set::from([keys[0].clone()]);
    assert_eq!(set.insert(keys[1].clone()), Ok(false));
    assert!(Rc::ptr_eq(set.get("a").unwrap(), &keys[0]));
    assert!(Rc::ptr_eq(set.get_or_insert(keys[1].clone()).unwrap(), &keys[0]));
    let earlier = set.replace(keys[2].clone()).unwrap().unwrap();
    assert!(Rc::ptr_eq(&earlier, &keys[0]) && Rc::ptr_eq(set.get("a").unwrap(), &keys[2]));
    assert_eq!((Rc::strong_count(&keys[1]), set.len()), (1, 1));
    assert_eq!((set.replace("b".into()), set.len()), (Ok(None), 2));
    assert_eq!(set.get_or_insert("c".into()).map(|key| key.len()), Ok(1));
    assert_eq!(set.len(), 3);
}

/// Two sets, and the keys in either, in both, in the first only and in exactly one.
type Row = (&'static [i32], &'static [i32], [&'static [i32]; 4]);

const ROWS: [Row; 6] = [
    (&[], &[], [&[], &[], &[], &[]]),
    (&[1, 2], &[], [&[1, 2], &[], &[1, 2], &[1, 2]]),
    (&[1, 2], &[1, 2], [&[1, 2], &[1, 2], &[], &[]]),
    (&[1, 2], &[3], [&[1, 2, 3], &[], &[1, 2], &[1, 2, 3]]),
    (&[1, 2, 3, 5], &[2, 3, 4], [&[1, 2, 3, 4, 5], &[2, 3], &[1, 5], &[1, 4, 5]]),
    (&[2], &[-1, 2, 7, 9], [&[-1, 2, 7, 9], &[2], &[], &[-1, 7, 9]]),
];

#[test]
fn two_sets_are_joined_and_compared() {
    for (a, b, [union, both, first, one]) in ROWS {
        let sets: [Set<i32>; 2] = [a, b].map(|keys| keys.iter().copied().collect());
        let [a, b] = &sets;
        assert_eq!(sorted(a.union(b).copied()), union);
        assert_eq!(sorted(a.intersection(b).copied()), both);
        assert_eq!(sorted(a.difference(b).copied()), first);
        assert_eq!(sorted(a.symmetric_difference(b).copied()), one);
        assert_eq!((sorted(a | b), sorted(a & b)), (union.to_vec(), both.to_vec()));
        assert_eq!((sorted(a - b), sorted(a ^ b)), (first.to_vec(), one.to_vec()));
        for iterator in [a.union(b).size_hint(), a.intersection(b).size_hint(), a.difference(b).size_hint()] {
            assert!(iterator.1.is_some());
        }
        let std: [HashSet<i32>; 2] = sets.clone().map(|set| set.into_iter().collect());
        assert_eq!(a.is_subset(b), std[0].is_subset(&std[1]));
        assert_eq!(a.is_superset(b), std[0].is_superset(&std[1]));
        assert_eq!(a.is_disjoint(b), std[0].is_disjoint(&std[1]));
        assert_eq!(a == b, std[0] == std[1]);
    }
}

#[test]
fn sets_are_made_printed_and_given_away() {
    let mut set: Set<u64> = (0..3000).collect();
    assert_eq!((sorted(set.iter().copied()), set.iter().len()), ((0..3000).collect(), 3000));
    assert_eq!((set.clone(), set.try_clone().as_ref()), (set.clone(), Ok(&set)));
    set.retain(|key| key % 3 == 0);
    assert_eq!((set.len(), set.extract_if(|key| key % 2 == 0).count(), set.len()), (1000, 500, 500));
    assert_eq!((set.extract_if(|_| true).size_hint(), set.len()), ((0, Some(500)), 500));
    assert_eq!(sorted(&set).len(), 500);
    assert_eq!((set.drain().len(), set.len()), (500, 0));
    set.extend([1, 2]);
    set.extend(&[2, 3]);
    assert_eq!((sorted(set.clone()), set.clone().into_iter().len()), (vec![1, 2, 3], 3));
    assert_eq!(set, Set::from([3, 2, 1, 1]));
    set.retain(|key| *key == 2);
    assert_eq!(format!("{set:?} {:?} {:?}", set.iter(), set.union(&set)), "{2} [2] [2]");
    assert_eq!(format!("{:?} {:?}", set.clone().drain(), set.clone().into_iter()), "[2] [2]");
    assert_eq!((Set::<bool>::default().len(), Set::with_seed(Seed::FIXED) == set), (0, false));
    assert_eq!(Set::try_from_iter(["a", "b", "a"]).map(|set| set.len()), Ok(2));
    // Fewer keys than a whole new set are inserted one by one, and no key is looked up twice.
    let words: Set<String> = "to be or not to be".split(' ').map(String::from).collect();
    assert_eq!(words.len(), 4);
}

#[test]
fn a_set_goes_to_another_thread() {
    let set = Set::from(["a".to_string()]);
    assert_eq!(std::thread::spawn(move || set.contains("a")).join().ok(), Some(true));
}
