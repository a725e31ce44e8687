"""A cache: which pair is evicted, what touches a pair, and what is counted. The reference is an OrderedDict in LRU order."""

import copy
import os
import pickle
import random
import unittest

import bucket
from kinds import CACHES, KEYS, Model, contents, filled, raised


def key(number):
    return KEYS[number % 4](number)


class Caches(unittest.TestCase):
    def test_the_pair_goes_that_was_touched_longest_ago(self):
        source = random.Random(5)
        for maxsize in 1, 2, 3, 10, 32, 300:
            made, model = bucket.Cache(maxsize), Model(maxsize)
            for _ in range(4000):
                at, chosen = key(source.randrange(3 * maxsize)), source.randrange(5)
                if chosen < 2:
                    self.assertEqual(made.put(at, chosen), model.put(at, chosen))
                elif chosen == 2:
                    self.assertEqual(made.get(at), model.get(at))
                elif chosen == 3:
                    self.assertEqual(made.peek(at), model.peek(at))
                else:
                    self.assertEqual(made.pop(at, None), model.pop(at, None))
                self.assertEqual(made.currsize, len(model))
            self.assertEqual(list(made.items()), list(model.items()))

    def test_there_are_the_last_pairs_and_no_others(self):
        for maxsize in 0, 1, 2, 31, 33, 64, 100, 128, 1000, 1024:
            made = bucket.Cache(maxsize)
            for number in range(5 * maxsize + 5):
                made[key(number)] = number
                self.assertEqual(len(made), min(number + 1, maxsize))
            self.assertEqual((made.maxsize, made.currsize), (maxsize, maxsize))
            last = range(4 * maxsize + 5, 5 * maxsize + 5)
            self.assertEqual(list(made.items()), [(key(number), number) for number in last])

    def test_what_touches_and_what_does_not(self):
        touches = [
            lambda made: made[1],
            lambda made: made.get(1),
            lambda made: made.setdefault(1, 0),
            lambda made: made.put(1, 5),
            lambda made: made.update({1: 5}),
            lambda made: made.__setitem__(1, 5),
        ]
        leaves = [
            lambda made: made.peek(1),
            lambda made: 1 in made,
            lambda made: list(made.items()),
            lambda made: list(made.values()),
            lambda made: made == {1: 2},
            lambda made: copy.copy(made),
            lambda made: pickle.dumps(made),
            lambda made: repr(made),
            lambda made: made.copy(),
            lambda made: bucket.Map(made),
            lambda made: (1, 1) in made.items(),
        ]
        for calls, order in (touches, [2, 3, 1]), (leaves, [1, 2, 3]):
            for number, call in enumerate(calls):
                made = bucket.Cache(3)
                made.update({1: 1, 2: 2, 3: 3})
                call(made)
                self.assertEqual(list(made), order, number)

    def test_look_ups_are_counted(self):
        made = bucket.Cache(4)
        made.update(a=1, b=2)
        self.assertEqual(made.cache_info(), (0, 0, 4, 2))
        made["a"], made.get("a"), made.get("c"), made.get((1, 2)), made.setdefault("b"), made.setdefault("d", 4)
        raised(lambda: made["e"])
        made.peek("a"), made.peek("e"), "a" in made, made.pop("a"), made.pop("a", None)
        self.assertEqual((made.hits, made.misses), (3, 4))
        info = made.cache_info()
        self.assertEqual((info.hits, info.misses, info.maxsize, info.currsize), (3, 4, 4, 2))
        self.assertEqual(pickle.loads(pickle.dumps(info)), info)
        made.clear()
        self.assertEqual(made.cache_info(), (0, 0, 4, 0))

    def test_sizes_are_checked(self):
        for size, error in (-1, ValueError), (1.0, TypeError), ("1", TypeError), (None, TypeError), (1 << 63, OverflowError):
            self.assertIs(raised(bucket.Cache, size), error)
            self.assertIs(raised(bucket.Cache, maxsize=size), error)
        self.assertIs(raised(bucket.Cache, 1, 2), TypeError)
        self.assertEqual((bucket.Cache().maxsize, bucket.Cache(True).maxsize, bucket.Cache(maxsize=5).maxsize), (128, 1, 5))
        self.assertEqual(bucket.Cache.__new__(bucket.Cache).maxsize, 128)
        self.assertIs(raised(setattr, bucket.Cache(), "maxsize", 5), AttributeError)
        empty = bucket.Cache(0)
        self.assertEqual((empty.put(1, 2), len(empty), empty.get(1)), (None, 0, None))

    def test_a_second_init_begins_anew(self):
        made = bucket.Cache(3)
        made.update({1: 1, 2: 2})
        made.get(1)
        self.assertIs(raised(made.__init__, -1), ValueError)
        self.assertEqual((made, made.hits), ({1: 1, 2: 2}, 1))
        made.__init__(5)
        self.assertEqual((len(made), made.maxsize, made.hits), (0, 5, 0))

    def test_popitem_gives_the_pairs_in_the_order_of_use(self):
        made = bucket.Cache(10)
        for number in range(10):
            made[key(number)] = number
        made.get(key(3))
        self.assertEqual([made.popitem()[1] for _ in range(10)], [0, 1, 2, 4, 5, 6, 7, 8, 9, 3])

    def test_copies_have_the_same_pairs_in_the_same_order(self):
        for kind in CACHES:
            made, model = filled(kind, 500)
            made.get(kind.key(5))
            for other in made.copy(), copy.copy(made), copy.deepcopy(made), pickle.loads(pickle.dumps(made)):
                self.assertEqual((list(other.items()), other.maxsize), (list(made.items()), made.maxsize))
                self.assertEqual((other.hits, other.misses), (0, 0))
            self.assertEqual(contents(made), model)

    def test_copies_of_full_caches_of_each_size(self):
        for size in range(0, 2001, 50 if "BUCKET_SANITIZED" in os.environ else 1):
            make = KEYS[size % 5]
            made = bucket.Cache(size)
            for number in range(size + 3):
                made[make(number)] = number
            made.get(make(size // 2 + 3))
            pairs = list(made.items())
            self.assertEqual(len(pairs), size)
            for other in made.copy(), pickle.loads(pickle.dumps(made)):
                self.assertEqual((list(other.items()), other.maxsize), (pairs, size))

    def test_a_look_up_in_an_iteration_leaves_the_iteration_whole(self):
        for kind in CACHES:
            made, model = filled(kind, 4000)
            self.assertEqual({key: made[key] for key in made}, model)
            self.assertEqual(dict(made), model)
            self.assertEqual({**made}, model)

    def test_missing_is_called_and_counts(self):
        class Squares(bucket.Cache):
            def __missing__(self, key):
                self[key] = made = key * key
                return made

        made = Squares(10)
        self.assertEqual([made[number % 5] for number in range(20)], [number * number for number in range(5)] * 4)
        self.assertEqual((made.hits, made.misses), (15, 5))

    def test_repr_and_comparisons(self):
        made = bucket.Cache(2)
        made["a"] = 1
        self.assertEqual(repr(made), "Cache({'a': 1}, maxsize=2, currsize=1)")
        made["b"] = made
        self.assertEqual(repr(made), "Cache({'a': 1, 'b': Cache({...})}, maxsize=2, currsize=2)")
        made["b"] = 2
        self.assertTrue(made == {"a": 1, "b": 2} == made == bucket.Map(a=1, b=2) == made != {"a": 1})

    def test_slots_come_as_pairs_do(self):
        for maxsize in 1, 32, 33, 64, 500, 5000:
            made = bucket.Cache(maxsize)
            self.assertEqual(made.capacity, 0)
            for number in range(3 * maxsize):
                made[number] = 1
            self.assertTrue(maxsize <= made.capacity <= max(64, 8 * maxsize), (maxsize, made.capacity))
            self.assertGreater(made.__sizeof__(), 16 * made.capacity)


if __name__ == "__main__":
    unittest.main()
