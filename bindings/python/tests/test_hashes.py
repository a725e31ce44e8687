"""Keys with equal hashes: a str and bytes with the same contents, strs of several widths, ints from 2**63 on. They share a chain."""

import collections
import gc
import itertools
import os
import pickle
import random
import sys
import unittest
import weakref

import bucket
from kinds import Model, Other, contents, nodes_of, put, raised
from test_keys import Number, Raw, Text
from test_lives import COPIES
from test_seeds import of_one_bucket
from test_set import INTO, OPERATORS


def ints_of(number):
    """The ints from 2**63 on that are keys and have a hash."""
    return [one for one in range(number, 1 << 64, sys.hash_info.modulus) if one >> 63]


# A str whose hash some ints have too.
TEXT = next(text for text in map(str, itertools.count(1000)) if 0 <= hash(text) < sys.hash_info.modulus)
GROUPS = [
    ["a", b"a"],
    ["\xfc", b"\xfc"],
    ["\u20ac", "\xac\x20", b"\xac\x20"],
    ["\ud800", "\x00\xd8", b"\x00\xd8"],
    ["\U0001f600", "\uf600\x01", "\x00\xf6\x01\x00", b"\x00\xf6\x01\x00"],
    ints_of(5),
    ["", b"", *ints_of(0)],
    [TEXT, TEXT.encode(), *ints_of(hash(TEXT))],
]
ALL = [key for group in GROUPS for key in group]


def fresh(key):
    """An equal key that is another object, except for the strs that Python interns."""
    return (key + key[:1])[: len(key)] if isinstance(key, (str, bytes)) else int(str(key))


def is_set(made):
    return isinstance(made, bucket.Set)


def take(made, key):
    """Removes a present key, in one of the possible ways."""
    made.remove(key) if is_set(made) else made.__delitem__(key) if hash(key) % 2 else made.pop(key)


def filled(kind, keys):
    made, model = kind(), {}
    for number, key in enumerate(keys):
        put(made, fresh(key), number)
        model[key] = number
    return made, model


class OneHash(unittest.TestCase):
    def check(self, made, model, keys):
        """The contents are those of a dict, each key once."""
        self.assertEqual(len(made), len(model))
        self.assertEqual(collections.Counter(list(made)), collections.Counter(list(model)))
        self.assertEqual({type(key) for key in made}, {type(key) for key in model})
        self.assertEqual(contents(made), set(model) if is_set(made) else model)
        self.assertEqual(made, set(model) if is_set(made) else model)
        self.assertEqual([key in made for key in keys], [key in model for key in keys])
        if isinstance(made, bucket.Cache):
            self.assertEqual(list(made.items()), list(model.items()))

    def test_keys_of_one_hash_are_kept_apart(self):
        for group in GROUPS:
            self.assertEqual(len({hash(key) for key in group}), 1, group)
            for kind in bucket.Map, bucket.Cache, bucket.Set:
                for count in range(len(group) + 1):
                    made, model = filled(kind, group[:count])
                    self.check(made, model, ALL)

    def test_each_is_removed_at_each_place(self):
        for group, kind in itertools.product(GROUPS, [bucket.Map, bucket.Cache, bucket.Set]):
            for order in itertools.permutations(group[:5]):
                made, model = filled(kind, group[:5])
                for key in order:
                    take(made, fresh(key))
                    del model[key]
                    self.assertIs(raised(take, made, key), KeyError)
                    self.check(made, model, group)
                put(made, order[0], 1)
                self.check(made, {order[0]: 1}, group)

    def test_writes_of_values_leave_the_others(self):
        for group, kind in itertools.product(GROUPS, [bucket.Map, bucket.Cache]):
            made, model = filled(kind, group[1:])
            for number, key in enumerate(group[1:], 100):
                walk = iter(made)
                made[key] = number
                next(walk)
                model.pop(key)
                model[key] = number
            self.assertEqual((made.setdefault(group[0], 5), made.setdefault(group[0], 6)), (5, 5))
            self.check(made, {**model, group[0]: 5}, ALL)
            self.assertEqual((made.pop(group[0]), made.pop(group[0], None), made.get(group[0])), (5, None, None))
            self.check(made, model, ALL)

    def test_keys_come_back_as_the_objects_that_were_put(self):
        keys = [fresh(key) for key in ALL]
        for kind in bucket.Map, bucket.Cache, bucket.Set:
            made = kind()
            for key in [*keys, *ALL]:
                put(made, key, 1)
            self.assertEqual(sorted(map(id, made)), sorted(map(id, keys)))

    def test_a_change_of_a_chain_ends_an_iteration(self):
        for group, kind in itertools.product(GROUPS, [bucket.Map, bucket.Cache, bucket.Set]):
            changes = [lambda made: put(made, group[0], 1), lambda made: take(made, group[1]), lambda made: take(made, group[-1])]
            for change in changes:
                for steps in range(len(group) - 1):
                    made, _ = filled(kind, group[1:])
                    walk = iter(made)
                    for _ in range(steps):
                        next(walk)
                    change(made)
                    self.assertIs(raised(next, walk), RuntimeError)

    def test_a_pickle_of_an_iterator_has_the_rest_of_a_chain(self):
        for kind in bucket.Map, bucket.Cache, bucket.Set:
            made, _ = filled(kind, ALL)
            walk = iter(made)
            for _ in ALL:
                next(walk)
                rest = pickle.loads(pickle.dumps(walk))
                self.assertEqual(list(rest), list(made)[-walk.__length_hint__() or len(ALL) :])

    def test_each_is_popped_once(self):
        for kind in bucket.Map, bucket.Cache, bucket.Set:
            for keys in [*GROUPS, ALL]:
                made, model = filled(kind, keys)
                pop = made.pop if is_set(made) else lambda made=made: made.popitem()[0]
                for left in range(len(keys), 0, -1):
                    key = pop()
                    self.assertIsNotNone(model.pop(key))
                    self.check(made, model, keys)
                    self.assertEqual(len(made), left - 1)
                self.assertIs(raised(pop), KeyError)

    def test_copies_clears_and_operators(self):
        for kind in bucket.Map, bucket.Cache, bucket.Set:
            for copies in COPIES:
                made, model = filled(kind, ALL)
                other = copies(made)
                made.clear()
                self.check(made, {}, ALL)
                self.check(other, model, ALL)
                put(made, "a", 1)
                self.check(made, {"a": 1}, ALL)
        for left, right in itertools.product([*GROUPS, ALL], [ALL[::2], ALL[1::2], GROUPS[-1]]):
            for operate, into in zip(OPERATORS, INTO):
                wanted = operate(set(left), set(right))
                self.assertEqual(operate(bucket.Set(left), bucket.Set(right)), wanted)
                self.assertEqual(into(bucket.Set(left), set(right)), wanted)
                self.assertEqual(operate(bucket.Map.fromkeys(left).keys(), bucket.Map.fromkeys(right).keys()), wanted)
            self.assertEqual(bucket.Map.fromkeys(left) | bucket.Map.fromkeys(right), dict.fromkeys([*left, *right]))
            self.assertEqual(bucket.Map.fromkeys(left) == bucket.Map.fromkeys(right), set(left) == set(right))

    def test_all_objects_of_a_chain_are_let_go_and_cycles_are_collected(self):
        for kind in bucket.Map, bucket.Cache:
            for group in GROUPS:
                values = [Other() for _ in group]
                seen = [weakref.ref(value) for value in values]
                made = kind()
                made.update(zip(group, values))
                del values
                for at in 1, 0:
                    del made[group[at]]
                    self.assertIsNone(seen[at]())
                self.assertTrue(all(gone() is not None for gone in seen[2:]))
                made.clear()
                self.assertEqual({gone() for gone in seen}, {None})

        def cycle_through_each():
            for kind, group in itertools.product([bucket.Map, bucket.Cache], GROUPS):
                for at in range(len(group)):
                    made, _ = filled(kind, group)
                    made[group[at]] = made

        nodes_of(self, cycle_through_each)


class ByChance(unittest.TestCase):
    """Random calls on few keys, checked against a dict or an OrderedDict."""

    def test_maps_and_sets(self):
        source = random.Random(11)
        made, plain, keys, few = bucket.Map(), {}, bucket.Set(), set()
        for _ in range(60_000):
            at, value, chosen = fresh(source.choice(ALL)), source.getrandbits(70), source.randrange(8)
            if chosen < 3:
                made[at] = plain[at] = value
                keys.add(at)
                few.add(at)
            elif chosen < 5:
                self.assertEqual(made.pop(at, None), plain.pop(at, None))
                keys.discard(at)
                few.discard(at)
            elif chosen == 5 and plain and source.randrange(4) == 0:
                at, value = made.popitem()
                self.assertIs(plain.pop(at), value)
                few.remove(keys.pop())
            elif chosen == 6 and source.randrange(100) == 0:
                self.assertEqual((dict(made.items()), set(keys)), (plain, few))
                made, keys = made.copy(), keys.copy()
                keys ^= set(ALL[::3])
                few ^= set(ALL[::3])
            self.assertEqual((made.get(at), at in made, len(made)), (plain.get(at), at in plain, len(plain)))
            self.assertEqual((at in keys, len(keys)), (at in few, len(few)))
            if not plain or not few:
                made["a"] = plain["a"] = 1
                keys.add("a")
                few.add("a")

    def test_caches(self):
        source = random.Random(12)
        for maxsize in 1, 2, 3, 10, 25:
            made, model = bucket.Cache(maxsize), Model(maxsize)
            for _ in range(8000):
                at, value, chosen = fresh(source.choice(ALL)), source.getrandbits(70), source.randrange(6)
                if chosen < 3:
                    self.assertEqual(made.put(at, value), model.put(at, value))
                elif chosen == 3:
                    self.assertEqual(made.get(at), model.get(at))
                elif chosen == 4:
                    self.assertEqual(made.pop(at, None), model.pop(at, None))
                elif model and source.randrange(5) == 0:
                    self.assertEqual(made.popitem(), model.popitem(last=False))
                self.assertEqual((made.peek(at), len(made)), (model.peek(at), len(model)))
                self.assertEqual(list(made), list(model))


@unittest.skipIf("BUCKET_OTHER_HASH" in os.environ, "a full bucket, since the library has another hash")
class AFullBucket(unittest.TestCase):
    """Keys of a cache in one bucket of the library, strs and the bytes of the same hashes: the pair touched longest ago is
    evicted, and no other."""

    SEED = bytes(range(16))

    def setUp(self):
        bucket.seeded(self.SEED)
        self.addCleanup(bucket.seeded, None)
        self.texts = of_one_bucket(self.SEED, 52)

    def filled(self, first, second):
        """A full cache of 50 strs and the bytes of each."""
        made = bucket.Cache(100)
        for text in self.texts[:50]:
            self.assertIsNone(made.put(first(text), 1))
            self.assertIsNone(made.put(second(text), 2))
        self.assertEqual(len(made), 100)
        return made

    def test_one_of_one_hash_goes_before_the_other(self):
        for first, second in (str, str.encode), (str.encode, str):
            made = self.filled(first, second)
            pairs, walk = list(made.items()), iter(made)
            self.assertEqual(made.put(self.texts[50], 3), (first(self.texts[0]), 1))
            self.assertEqual(list(made.items()), pairs[1:] + [(self.texts[50], 3)])
            self.assertTrue(first(self.texts[0]) not in made and second(self.texts[0]) in made)
            self.assertIs(raised(next, walk), RuntimeError)
            self.assertEqual(made.put(self.texts[50].encode(), 4), (second(self.texts[0]), 2))
            self.assertEqual(list(made.items()), pairs[2:] + [(self.texts[50], 3), (self.texts[50].encode(), 4)])

    def test_a_new_pair_may_have_the_hash_of_the_one_that_goes(self):
        for one, other in (str, str.encode), (str.encode, str):
            made = bucket.Cache(50)
            for text in self.texts[:50]:
                made[one(text)] = 1
            for at, text in enumerate(self.texts[:50]):
                self.assertEqual(made.put(other(text), 2), (one(text), 1))
                self.assertEqual(list(made), [*map(one, self.texts[at + 1 : 50]), *map(other, self.texts[: at + 1])])

    def test_a_touch_of_one_is_none_of_the_other(self):
        for touched, other in (str, str.encode), (str.encode, str):
            made = self.filled(str, str.encode)
            made.get(touched(self.texts[0]))
            made.pop(other(self.texts[1]))
            self.assertIsNone(made.put(self.texts[50], 3))
            self.assertEqual(made.put(self.texts[51], 3)[0], other(self.texts[0]))
            self.assertEqual(made.put(self.texts[51].encode(), 3)[0], touched(self.texts[1]))
            self.assertTrue(touched(self.texts[0]) in made and len(made) == 100)

    def test_what_goes_is_let_go_and_no_other(self):
        made, values = self.filled(str, str.encode), [Other(), Other()]
        made[self.texts[0]], made[self.texts[0].encode()] = values
        for text in self.texts[1:50]:
            made.get(text), made.get(text.encode())
        seen = [weakref.ref(value) for value in values]
        del values
        for at, left in enumerate([[False, True], [False, False]], 50):
            made[self.texts[at]] = 3
            gc.collect()
            self.assertEqual([there() is not None for there in seen], left)


class Alike(unittest.TestCase):
    """Objects that are the same key."""

    def test_equal_strs_bytes_and_ints_that_are_other_objects(self):
        for key in ["key 1", "schl\xfcssel", "\u20ac 1", "\U0001f600 1", "\ud800 1", b"key 1", b"\xff 1", 1 << 63, (1 << 64) - 1]:
            self.assertIsNot(fresh(key), key)
            for kind in bucket.Map, bucket.Cache:
                made = kind()
                made[key] = 1
                self.assertEqual((made[fresh(key)], fresh(key) in made, made.setdefault(fresh(key), 2), len(made)), (1, True, 1, 1))
                made[fresh(key)] = 3
                self.assertEqual((made.pop(fresh(key)), len(made)), (3, 0))

    def test_a_class_below_stands_with_its_base(self):
        for below, key in (Text, "key 1"), (Text, "\u20ac"), (Raw, b"key 1"), (Number, 1 << 63), (Number, 5):
            for one, other in (below(key), key), (key, below(key)), (below(key), below(key)):
                made = bucket.Map({one: 1})
                made[other] = 2
                self.assertTrue(len(made) == 1 and made[one] == made[other] == 2 and next(iter(made)) is one)

    def test_a_class_that_shows_the_hash_of_its_base_has_it(self):
        class Shows(type):
            def __getattribute__(cls, name):
                return getattr(str, name) if name in ("__eq__", "__hash__") else super().__getattribute__(name)

        class Below(str, metaclass=Shows):
            def __eq__(self, other):
                raise ZeroDivisionError

            def __hash__(self):
                raise ZeroDivisionError

        made = bucket.Map([(Below("a"), 1), (b"a", 2)])
        self.assertEqual((made["a"], made[Below("a")], made[b"a"], made.pop("a"), len(made)), (1, 1, 2, 1, 1))

    def test_a_key_whose_class_changes_is_still_popped(self):
        class Changes(str):
            pass

        key = Changes("a")
        made, cache = bucket.Map({b"a": 1, key: 2}), bucket.Cache(1)
        cache[key] = 2
        Changes.__eq__, Changes.__hash__ = lambda self, other: False, lambda self: 5
        self.assertTrue(key not in made and "a" in made)
        self.assertEqual(cache.put("b", 3)[1], 2)
        self.assertEqual(sorted(made.popitem()[1] for _ in range(2)), [1, 2])
        self.assertEqual((len(made), list(cache)), (0, ["b"]))


if __name__ == "__main__":
    unittest.main()
