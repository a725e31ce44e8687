"""200,000 random calls on each collection, checked against a dict, a set, or an OrderedDict."""

import itertools
import os
import random
import sys
import unittest

import bucket
from bucket import _bucket
from kinds import KEYS, Model, Other, contents

CALLS = int(os.environ.get("BUCKET_CALLS", "200000"))


class ByChance(unittest.TestCase):
    def play_map(self, key, source):
        made, plain = bucket.Map(), {}
        for _ in range(CALLS):
            at, value, chosen = key(source.randrange(6000)), source.getrandbits(70), source.randrange(9)
            if chosen < 2:
                made[at] = plain[at] = value
            elif chosen == 2:
                self.assertEqual(made.setdefault(at, value), plain.setdefault(at, value))
            elif chosen == 3:
                self.assertEqual(made.pop(at, None), plain.pop(at, None))
            elif chosen == 4 and at in plain:
                del made[at], plain[at]
            elif chosen == 5 and at in plain:
                self.assertIs(made[at], plain[at])
            elif chosen == 6 and source.randrange(10) == 0 and plain:
                at, value = made.popitem()
                self.assertIs(plain.pop(at), value)
            elif chosen == 7 and source.randrange(5000) == 0:
                self.assertEqual(made, plain)
                made.clear()
                plain.clear()
            else:
                self.assertEqual((at in made, made.get(at), len(made)), (at in plain, plain.get(at), len(plain)))
        self.assertEqual(contents(made), plain)
        self.assertEqual(dict(made.items()), plain)
        self.assertEqual(sorted(map(id, made.values())), sorted(map(id, plain.values())))

    def test_maps(self):
        for number, key in enumerate(KEYS):
            self.play_map(key, random.Random(number))

    def test_sets(self):
        for number, key in enumerate(KEYS):
            source = random.Random(number)
            made, plain = bucket.Set(), set()
            for _ in range(CALLS):
                at, chosen = key(source.randrange(5000)), source.randrange(10)
                if chosen < 4:
                    made.add(at)
                    plain.add(at)
                elif chosen < 6:
                    made.discard(at)
                    plain.discard(at)
                elif chosen == 6 and plain and source.randrange(10) == 0:
                    plain.remove(made.pop())
                elif chosen == 7 and source.randrange(2000) == 0:
                    others = [key(source.randrange(5000)) for _ in range(3000)]
                    name = source.choice(["update", "intersection_update", "difference_update", "symmetric_difference_update"])
                    getattr(made, name)(others)
                    getattr(plain, name)(others)
                else:
                    self.assertEqual((at in made, len(made)), (at in plain, len(plain)))
            self.assertEqual(contents(made), plain)

    def play_cache(self, key, maxsize, source):
        made, model, gone_in_all = bucket.Cache(maxsize), Model(maxsize), 0
        for _ in range(CALLS // 10 + 10 * maxsize):
            at, value, chosen = key(source.randrange(3 * maxsize)), source.getrandbits(70), source.randrange(9)
            if chosen < 2:
                gone = made.put(at, value)
                self.assertEqual(gone, model.put(at, value))
                gone_in_all += gone is not None
            elif chosen == 2:
                made[at] = value
                model.put(at, value)
            elif chosen == 3:
                self.assertEqual(made.get(at), model.get(at))
            elif chosen == 4 and source.randrange(2):
                self.assertEqual(made.pop(at, None), model.pop(at, None))
            elif chosen == 5:
                there = model.get(at)
                self.assertEqual(made.setdefault(at, value), value if there is None else there)
                model.put(at, value if there is None else there)
            elif chosen == 6 and source.randrange(100) == 0:
                pairs = {key(source.randrange(3 * maxsize)): value for _ in range(source.randrange(2 * maxsize))}
                made.update(pairs)
                for one in pairs:
                    model.put(one, value)
            elif chosen == 7 and source.randrange(10) == 0 and model:
                self.assertEqual(made.popitem(), model.popitem(last=False))
            elif chosen == 8 and source.randrange(1000) == 0:
                self.assertEqual(list(made.items()), list(model.items()))
                made = made.copy()
            else:
                self.assertEqual((made.peek(at), at in made, len(made)), (model.peek(at), at in model, len(model)))
        self.assertEqual(list(made.items()), list(model.items()))
        self.assertTrue(gone_in_all > CALLS / 1000 and len(model) > maxsize / 2)

    def test_caches(self):
        for key, maxsize in itertools.product(KEYS, [1, 2, 33, 100, 1000]):
            self.play_cache(key, maxsize, random.Random(maxsize))

    def test_all_objects_are_let_go(self):
        source, before, counts = random.Random(3), _bucket._nodes(), []
        values = [Other() for _ in range(50)]
        counts = [sys.getrefcount(value) for value in values]
        made = [bucket.Map(), bucket.Cache(100), bucket.Map()]
        for _ in range(CALLS // 4):
            one, at = source.choice(made), source.choice(KEYS)(source.randrange(300))
            if source.randrange(3):
                one[at] = source.choice(values)
            else:
                one.pop(at, None)
        self.assertEqual(_bucket._nodes() - before, sum(map(len, made)))
        held = sum(sys.getrefcount(value) for value in values) - sum(counts)
        self.assertEqual(held, sum(map(len, made)))
        one = value = None
        made.clear()
        self.assertEqual([sys.getrefcount(value) for value in values], counts)
        self.assertEqual(_bucket._nodes(), before)


if __name__ == "__main__":
    unittest.main()
