"""Many pairs from another collection come in the order of its slots; inserting them takes no longer than otherwise.

With the same seed that is the order of the hashes. In a table that grows while it is filled, all would
collide in the first buckets. The blocks of their chains are allocations: in a build with refuse.c these
are counted, and made to fail."""

import copy
import pickle
import unittest

import bucket
from bucket import _bucket
from kinds import KEYS, contents, raised, text, word
from test_memory import LIBRARY, REFUSES

SEED = bytes(range(16))
SEEDS = [None, SEED, bytes(16)]
WHY = "failing allocations of the library, since the module isn't built with refuse.c"

# Each makes a collection of the same pairs or keys, or of one more.
OF_A_MAP = [
    lambda made: made.copy(),
    lambda made: bucket.Map(made),
    lambda made: bucket.Map(dict(made)),
    lambda made: bucket.Map(list(made.items())),
    lambda made: bucket.Map(tuple(made.items())),
    lambda made: bucket.Map(made.items()),
    lambda made: bucket.Map.fromkeys(made, 1),
    lambda made: made | {-7: 1},
    lambda made: bucket.Map({-7: 1}) | made,
    lambda made: updated(bucket.Map({-7: 1}), made),
    lambda made: copy.copy(made),
    lambda made: pickle.loads(pickle.dumps(made)),
]
OF_A_CACHE = [
    lambda made: made.copy(),
    lambda made: updated(bucket.Cache(made.maxsize), made),
    lambda made: copy.copy(made),
    lambda made: pickle.loads(pickle.dumps(made)),
]
OF_A_SET = [
    lambda made: made.copy(),
    lambda made: bucket.Set(made),
    lambda made: bucket.Set(list(made)),
    lambda made: bucket.Set(tuple(made)),
    lambda made: bucket.Set(set(list(made))),
    lambda made: bucket.Set(bucket.Map.fromkeys(made).keys()),
    lambda made: bucket.Set(dict.fromkeys(made)),
    lambda made: made | {-7},
    lambda made: bucket.Set([-7]) | made,
    lambda made: made & set(made),
    lambda made: made - {-7},
    lambda made: made ^ {-7},
    lambda made: updated(bucket.Set([-7]), made),
    lambda made: copy.copy(made),
    lambda made: pickle.loads(pickle.dumps(made)),
]


def updated(made, other):
    made.update(other)
    return made


def pairs_of(key, count):
    return {key(number): 1 for number in range(count)}


def slots(made):
    """About how many slots there are, which is at least the number of pairs."""
    return (made.__sizeof__() - bucket.Map().__sizeof__()) / 18


def asked(call):
    """The number of allocations that the library makes in a call."""
    LIBRARY.bucket_refuse(0)
    made = call()
    count = LIBRARY.bucket_asked()
    del made
    return count


class Room(unittest.TestCase):
    def setUp(self):
        self.addCleanup(bucket.seeded, None)

    def test_each_collection_has_a_seed_of_its_own(self):
        for kind in bucket.Map.fromkeys, bucket.Set:
            bucket.seeded(None)
            one, other = kind(range(1000)), kind(range(1000))
            self.assertTrue(list(one) != list(other) and one == other)
            bucket.seeded(SEED)
            self.assertEqual(list(kind(range(1000))), list(kind(range(1000))))

    def test_each_call_gives_the_same_pairs_of_many(self):
        for seed in SEEDS:
            bucket.seeded(seed)
            for key in KEYS:
                pairs = pairs_of(key, 500)
                for made, calls in (bucket.Map(pairs), OF_A_MAP), (bucket.Set(pairs), OF_A_SET):
                    for call in calls:
                        other = contents(call(made))
                        other.discard(-7) if isinstance(other, set) else other.pop(-7, None)
                        self.assertEqual(other, type(other)(pairs))

    def test_room_that_was_made_in_vain_is_given_back(self):
        many = list(range(50_000))
        alone, all_of_them = bucket.Set([-7]), bucket.Set(many)
        for made in [
            bucket.Set([5] * 50_000),
            bucket.Map([(5, 1)] * 50_000),
            bucket.Map([((1 << 63) + number % 2, 1) for number in many]),
            bucket.Map.fromkeys([5] * 50_000),
            all_of_them & set(range(49_998, 120_000)),
            all_of_them - set(range(3, 120_000)),
            all_of_them ^ bucket.Set(many[3:]),
            updated(alone, [5] * 50_000),
        ]:
            self.assertTrue(0 < len(made) <= 3 and slots(made) < 5000, (len(made), slots(made)))

    def test_a_cache_makes_room_for_no_more_than_it_may_have(self):
        for made in bucket.Cache(10**9), bucket.Cache(100):
            made.update([(5, 1)] * 50_000)
            self.assertTrue(len(made) == 1 and slots(made) < 5000, slots(made))
        for pairs in pairs_of(word, 3900), bucket.Map(pairs_of(word, 3900)):
            self.assertLessEqual(updated(bucket.Cache(1000), pairs).capacity, 4096)

    def test_a_cache_takes_the_last_pairs_of_each(self):
        for seed in SEEDS:
            bucket.seeded(seed)
            for key in KEYS:
                pairs = pairs_of(key, 1500)
                made = bucket.Map(pairs)
                for other in made, made.items(), pairs, list(pairs.items()):
                    for maxsize in 10, 100, 1499, 1500, 3000:
                        cache = updated(bucket.Cache(maxsize), {-7: 1})
                        cache.update(other)
                        last = [(-7, 1), *(other if isinstance(other, list) else dict(other).items())][-maxsize:]
                        self.assertEqual(list(cache.items()), last)

    def test_a_walk_goes_on_while_a_list_overwrites(self):
        for made in bucket.Map(pairs_of(word, 20)), updated(bucket.Cache(20), pairs_of(word, 20)):
            seen = []
            for key in made:
                made.update([(key, 2)] * 1000)
                seen.append(key)
            self.assertEqual((sorted(seen), set(made.values())), (sorted(made), {2}))

    def test_a_pair_that_is_refused_leaves_those_before_it(self):
        made = bucket.Map(pairs_of(text, 40))
        with self.assertRaises(TypeError):
            made.update({**pairs_of(word, 50), 1.5: 1, -7: 1})
        self.assertEqual(contents(made), pairs_of(text, 40) | pairs_of(word, 50))

    def test_a_pickle_that_asks_for_too_much(self):
        self.assertEqual(_bucket._map_of(bucket.Map, (1 << 63) - 1, 1 << 60), {})
        wrong = [(bucket.Map, -1, 0), (bucket.Map, 0, -1), (bucket.Map,)]
        for arguments in [*wrong, (bucket.Set, 0, 0), (int, 0, 0), (5, 0, 0)]:
            self.assertIs(raised(_bucket._map_of, *arguments), TypeError)
        made = _bucket._cache_of(bucket.Cache, (1 << 63) - 1, (1 << 63) - 1, 1 << 60)
        self.assertEqual((made, made.maxsize), ({}, (1 << 63) - 1))
        wrong = [(bucket.Cache, -1, 0, 0), (bucket.Cache, 5, -1, 0), (bucket.Cache, 5, 0, -1), (bucket.Cache,)]
        for arguments in [*wrong, (bucket.Map, 5, 0, 0), (int, 5, 0, 0), (5, 5, 0, 0)]:
            self.assertIs(raised(_bucket._cache_of, *arguments), TypeError)


@unittest.skipUnless(REFUSES, WHY)
class Requests(unittest.TestCase):
    def setUp(self):
        self.addCleanup(bucket.seeded, None)

    def test_a_copy_asks_for_less_memory_than_what_it_copies(self):
        for seed in SEEDS:
            bucket.seeded(seed)
            for key in KEYS:
                pairs = pairs_of(key, 3000)
                made, filling = bucket.Map(), bucket.Map()
                before = asked(lambda: [filling.__setitem__(at, 1) for at in pairs])
                made.update(pairs)
                for number, call in enumerate(OF_A_MAP):
                    self.assertLess(asked(lambda: call(made)), before, (seed, key.__name__, number))
                made = bucket.Set(pairs)
                for number, call in enumerate(OF_A_SET):
                    self.assertLess(asked(lambda: call(made)), before, (seed, key.__name__, number))
                made = updated(bucket.Cache(3000), pairs)
                for number, call in enumerate(OF_A_CACHE):
                    self.assertLess(asked(lambda: call(made)), before, (seed, key.__name__, number))

    def test_a_cache_asks_for_few_blocks_in_each_order(self):
        for seed in SEEDS:
            bucket.seeded(seed)
            for key in KEYS:
                pairs = pairs_of(key, 3000)
                made = bucket.Map(pairs)
                # A thousand pairs that collide in a few buckets would need about 250 blocks.
                for other in pairs, made, made.items(), list(made.items()), iter(made.items()):
                    self.assertLess(asked(lambda: updated(bucket.Cache(1000), other)), 150)

    def test_a_loop_over_another_asks_for_about_as_much(self):
        bucket.seeded(None)
        for key in word, text:
            made, other, third = bucket.Map(), bucket.Map(), bucket.Set()
            before = asked(lambda: [made.__setitem__(at, 1) for at in pairs_of(key, 3000)])
            self.assertLess(asked(lambda: [other.__setitem__(at, 1) for at in made]), 3 * before)
            self.assertLess(asked(lambda: [third.add(at) for at in other]), 3 * before)

    def refused(self, target, call, before, after):
        """The contents after each failure that raised, and how many allocations a call did without."""
        left, without = [], 0
        for number in range(1, 100):
            made, is_refused = target(), False
            LIBRARY.bucket_refuse(number)
            try:
                made = call(made) or made
            except MemoryError:
                is_refused = True
            finally:
                count = LIBRARY.bucket_asked()
                LIBRARY.bucket_refuse(0)
            now = contents(made)
            self.assertTrue(before.items() <= now.items() <= after.items())
            if is_refused:
                left.append(now)
            else:
                self.assertEqual(now, after)
            if count < number:
                return left, without
            without += not is_refused
        self.fail("requests without end")

    def test_room_is_refused(self):
        bucket.seeded(SEED)
        before = pairs_of(word, 5)
        for key in word, text:
            pairs = pairs_of(key, 1000)
            source, after = bucket.Map(pairs), before | pairs
            # The room for all is made before the first one is inserted.
            for sure in source, pairs:
                for target in bucket.Map, lambda pairs: updated(bucket.Cache(2000), pairs):
                    left, _ = self.refused(
                        lambda: target(before), lambda made: made.update(sure), before, after
                    )
                    self.assertEqual(left[0], before)
            for made in source, updated(bucket.Cache(2000), pairs):
                left, _ = self.refused(type(made), lambda _: made.copy(), {}, pairs)
                self.assertEqual(left[0], {})
            # A list may have a key many times, so a call continues without that room.
            for unsure in list(source.items()), tuple(source.items()):
                for target in bucket.Map, lambda: bucket.Cache(2000):
                    _, without = self.refused(target, lambda made: made.update(unsure), {}, pairs)
                    self.assertGreater(without, 0)
            self.assertEqual(contents(source), pairs)


if __name__ == "__main__":
    unittest.main()
