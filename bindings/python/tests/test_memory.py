"""Each allocation fails in turn: a call raises MemoryError, or continues without it, and nothing is lost.

Python's own allocations are made to fail by _testcapi; those of the library in a build with refuse.c."""

import copy
import ctypes
import gc
import os
import pickle
import random
import unittest

import bucket
from bucket import _bucket
from kinds import CACHES, KEYS, KINDS, MAPS, SETS, Kind, Model, Other, contents, filled, put
from test_seeds import of_one_bucket

try:
    import _testcapi
except ImportError:
    _testcapi = None

LIBRARY = ctypes.PyDLL(_bucket.__file__)
REFUSES = hasattr(LIBRARY, "bucket_refuse")
if REFUSES:
    LIBRARY.bucket_refuse.argtypes, LIBRARY.bucket_refuse.restype = [ctypes.c_size_t], None
    LIBRARY.bucket_asked.restype = ctypes.c_size_t

# pickle raises another error if the allocation for an import fails.
REFUSALS = MemoryError, pickle.PicklingError

LONG = ["k" * 500, b"k" * 500, "\ud800" * 50, "ü" * 200]

# Calls that change nothing, whether they fail or not.
READS = [
    lambda made, key: key(3) in made,
    lambda made, key: [key(number) in made for number in range(20)],
    lambda made, key: [text in made for text in LONG],
    lambda made, key: list(made),
    lambda made, key: made == made.copy(),
    lambda made, key: repr(made),
    lambda made, key: copy.copy(made),
    lambda made, key: copy.deepcopy(made),
    lambda made, key: pickle.loads(pickle.dumps(made)),
    lambda made, key: made.copy(),
]
READS_OF_PAIRS = [
    lambda made, key: (made.get(key(3)), made.get(key(5), 7)),
    lambda made, key: (list(made.items()), list(made.values())),
    lambda made, key: made.keys() & {key(3)},
    lambda made, key: made.items() & made.copy().items(),
    lambda made, key: made.items() ^ made.copy().items(),
    lambda made, key: made.keys() ^ (key(3), key(90)),
    lambda made, key: dict(made),
]
READS_OF_A_SET = [
    lambda made, key: made | {key(90)},
    lambda made, key: made & {key(3), key(90)},
    lambda made, key: made - {key(3)},
    lambda made, key: made ^ {key(3), key(90)},
    lambda made, key: made.issubset([key(3)]),
]
# Calls that do either everything or nothing.
WRITES = [
    lambda made, key: put(made, key(3), 100),
    lambda made, key: put(made, key(90), 100),
    lambda made, key: put(made, "k" * 500, 100),
    lambda made, key: put(made, "\ud800" * 50, 100),
    lambda made, key: made.pop() if isinstance(made, (set, bucket.Set)) else made.popitem(),
    lambda made, key: made.clear(),
]
WRITES_OF_PAIRS = [
    lambda made, key: made.pop(key(3)),
    lambda made, key: made.setdefault(key(90), 5),
    lambda made, key: made.__delitem__(key(3)),
]
WRITES_OF_A_SET = [
    lambda made, key: made.remove(key(3)),
    lambda made, key: made.intersection_update([key(3), key(4), key(90)]),
    lambda made, key: made.symmetric_difference_update([key(3), key(4), key(90)]),
]


def calls(kind):
    """Each call of a kind, and whether it changes the collection."""
    reads = READS + (READS_OF_A_SET if kind in SETS else READS_OF_PAIRS)
    writes = WRITES + (WRITES_OF_A_SET if kind in SETS else WRITES_OF_PAIRS)
    return [(call, False) for call in reads] + [(call, True) for call in writes]


# Calls on a full cache: a copy, or a put of an absent key. A present key is put and read without allocating.
CALLS_OF_A_CACHE = [
    lambda made, key: made.put(key, 100),
    lambda made, key: made.__setitem__(key, 100),
    lambda made, key: made.setdefault(key, 100),
    lambda made, key: made.update({key: 100}),
    lambda made, key: made.copy(),
    lambda made, key: copy.copy(made),
    lambda made, key: pickle.loads(pickle.dumps(made)),
    lambda made, key: bucket.Cache(made.maxsize).update(made),
]


def full(count):
    """Caches that are filled by that many pairs."""
    return [Kind(lambda: bucket.Cache(max(count, 1)), key) for key in KEYS]


class Refused(unittest.TestCase):
    SEED = bytes(range(16))

    def setUp(self):
        # With one seed each run makes the same requests.
        bucket.seeded(self.SEED)
        self.addCleanup(bucket.seeded, None)

    def check(self, kind, made, model, call, is_write, is_refused):
        """The contents after a call: the earlier ones, or something else after a write that didn't fail."""
        self.assertEqual(len(made), len(list(made)))
        if is_refused or not is_write:
            self.assertEqual(contents(made), model, kind.key.__name__)
        if is_refused and is_write and isinstance(made, bucket.Cache):
            self.assertEqual(list(made.items()), list(model.items()))
        # The collection stays usable.
        put(made, kind.key(200), 1)
        self.assertIn(kind.key(200), made)

    @unittest.skipIf(_testcapi is None, "failing allocations of Python, since there is no _testcapi")
    def test_each_request_of_python_is_refused_once(self):
        refusals = 0
        for kind in KINDS + full(12):
            for call, is_write in calls(kind):
                for number in range(1, 100):
                    made, model = filled(kind, 12)
                    is_refused = False
                    _testcapi.set_nomemory(number, number + 1)
                    try:
                        call(made, kind.key)
                    except REFUSALS:
                        is_refused = True
                    finally:
                        _testcapi.remove_mem_hooks()
                    self.check(kind, made, model, call, is_write, is_refused)
                    refusals += is_refused
                    if not is_refused and number > 25:
                        break
        self.assertGreater(refusals, 1000)

    @unittest.skipIf(_testcapi is None, "failing allocations of Python, since there is no _testcapi")
    def test_all_requests_of_python_are_refused_for_a_while(self):
        for kind in KINDS + full(12):
            for call, is_write in calls(kind):
                for number in range(1, 12):
                    made, model = filled(kind, 12)
                    is_refused = False
                    _testcapi.set_nomemory(number, 0)
                    try:
                        call(made, kind.key)
                    except REFUSALS:
                        is_refused = True
                    finally:
                        _testcapi.remove_mem_hooks()
                    self.check(kind, made, model, call, is_write, is_refused)

    @unittest.skipUnless(REFUSES, "failing allocations of the library, since the module isn't built with refuse.c")
    def test_each_request_of_the_library_is_refused_once(self):
        refusals = 0
        for count in 0, 12, 60, 300:
            for kind in KINDS + full(count):
                for call, is_write in calls(kind):
                    # Calls that fill another collection make many requests, so small collections suffice.
                    if count == 0 and call not in WRITES[:4] or count > 12 and not is_write:
                        continue
                    for number in range(1, 1000):
                        made, model = filled(kind, count)
                        is_refused = False
                        LIBRARY.bucket_refuse(number)
                        try:
                            call(made, kind.key)
                        except REFUSALS:
                            is_refused = True
                        finally:
                            asked = LIBRARY.bucket_asked()
                            LIBRARY.bucket_refuse(0)
                        self.check(kind, made, model, call, is_write, is_refused)
                        refusals += is_refused
                        if asked < number:
                            break
        self.assertGreater(refusals, 500)

    def play_full(self, keys, call, refuse, end):
        """A call on a full cache, with each of its requests failing in turn. Returns how many failed, or were done without."""
        for number in range(1, 1000):
            made, is_refused = bucket.Cache(len(keys) - 1), False
            for key in keys[:-1]:
                made[key] = 1
            before, after = list(made.items()), [*list(made.items())[1:], (keys[-1], 100)]
            refuse(number)
            try:
                call(made, keys[-1])
            except REFUSALS:
                is_refused = True
            finally:
                is_last = end() < number
            now = list(made.items())
            if is_refused or call not in CALLS_OF_A_CACHE[:4]:
                self.assertEqual((now, len(made)), (before, len(before)))
            else:
                self.assertEqual(now, after)
            # The cache stays usable, and evicts the next one.
            self.assertEqual(made.put("next", 1), now[0])
            self.assertEqual(list(made.items()), [*now[1:], ("next", 1)])
            if is_last:
                return number - 1
        self.fail("requests without end")

    @unittest.skipIf(_testcapi is None, "failing allocations of Python, since there is no _testcapi")
    def test_a_full_cache_stays_as_it_was_where_python_is_refused(self):
        def end():
            _testcapi.remove_mem_hooks()
            return 0 if asked[0] > 60 else 1000

        def refuse(number):
            asked[0] = number
            _testcapi.set_nomemory(number, number + 1)

        asked = [0]
        for key in KEYS:
            for call in CALLS_OF_A_CACHE:
                self.play_full([key(number) for number in range(13)], call, refuse, end)

    @unittest.skipUnless(REFUSES, "failing allocations of the library, since the module isn't built with refuse.c")
    def test_a_full_cache_stays_as_it_was_where_the_library_is_refused(self):
        def end():
            asked = LIBRARY.bucket_asked()
            LIBRARY.bucket_refuse(0)
            return asked

        refusals = 0
        for key in KEYS:
            for count in 2, 53, 54, 400:
                for call in CALLS_OF_A_CACHE:
                    refusals += self.play_full([key(number) for number in range(count)], call, LIBRARY.bucket_refuse, end)
        self.assertGreater(refusals, 100)
        if "BUCKET_OTHER_HASH" in os.environ:
            return
        # A bucket of the library takes more memory for each four pairs past 32.
        refusals, texts = 0, of_one_bucket(self.SEED, 50)
        for count in range(30, 50):
            for call in CALLS_OF_A_CACHE:
                refusals += self.play_full(texts[:count], call, LIBRARY.bucket_refuse, end)
        self.assertGreater(refusals, 50)

    @unittest.skipUnless(REFUSES, "failing allocations of the library, since the module isn't built with refuse.c")
    def test_calls_by_chance_while_one_request_in_five_is_refused(self):
        source, refusals, before = random.Random(8), 0, _bucket._nodes()
        for key in KEYS:
            for made in bucket.Map(), bucket.Cache(300), bucket.Set():
                model = Model(300 if isinstance(made, bucket.Cache) else 1 << 60)
                for _ in range(20_000):
                    at, value = key(source.randrange(1500)), Other()
                    LIBRARY.bucket_refuse(1 if source.randrange(5) == 0 else 0)
                    try:
                        if source.randrange(3):
                            put(made, at, value)
                            model.put(at, value)
                        else:
                            made.discard(at) if isinstance(made, bucket.Set) else made.pop(at, None)
                            model.pop(at, None)
                    except MemoryError:
                        refusals += 1
                    finally:
                        LIBRARY.bucket_refuse(0)
                    self.assertEqual(len(made), len(model))
                self.assertEqual(contents(made), set(model) if isinstance(made, bucket.Set) else dict(model))
                if isinstance(made, bucket.Cache):
                    self.assertEqual(list(made), list(model))
        del made, value, model
        gc.collect()
        self.assertEqual(_bucket._nodes(), before)
        self.assertGreater(refusals, 20)

    def test_a_size_that_no_memory_has(self):
        made = bucket.Cache((1 << 63) - 1)
        made["a"] = 1
        made[5] = 2
        self.assertEqual(dict(made.items()), {"a": 1, 5: 2})

    def test_nothing_stays_behind(self):
        gc.collect()
        before = _bucket._nodes()
        if _testcapi is not None:
            for kind in MAPS + CACHES:
                for number in range(1, 60):
                    made, _ = filled(kind, 12)
                    _testcapi.set_nomemory(number, number + 1)
                    try:
                        made.update({"a": 1, 2: 3, "k" * 300: 4})
                        # Not by the module copy, which leaves objects of any class behind if a call fails.
                        made.copy().popitem()
                        made.copy() == made
                    except MemoryError:
                        pass
                    finally:
                        _testcapi.remove_mem_hooks()
        made = None
        gc.collect()
        self.assertEqual(_bucket._nodes(), before)


if __name__ == "__main__":
    unittest.main()
