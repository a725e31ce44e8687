"""Copies, pickles, weak references, the garbage collector and threads."""

import copy
import gc
import pickle
import sys
import threading
import time
import unittest
import weakref

import bucket
from kinds import CACHES, KINDS, MAPS, SETS, Other, contents, filled, nodes_of, put, raised, text

COPIES = [copy.copy, copy.deepcopy, lambda made: made.copy()] + [
    lambda made, protocol=protocol: pickle.loads(pickle.dumps(made, protocol)) for protocol in range(pickle.HIGHEST_PROTOCOL + 1)
]


# Pickles without numbers of keys, with protocols 0, 2 and 4, and their contents.
OLDER_PICKLES = [
    (bucket.Map, {1: "a"}, b"ccopy_reg\n__newobj__\np0\n(cbucket\nMap\np1\ntp2\nRp3\nI1\nVa\np4\ns."),
    (bucket.Map, {1: "a"}, b"\x80\x02cbucket\nMap\nq\x00)\x81q\x01K\x01X\x01\x00\x00\x00aq\x02s."),
    (
        bucket.Map,
        {1: "a"},
        b"\x80\x04\x95\x1c\x00\x00\x00\x00\x00\x00\x00\x8c\x06bucket\x94\x8c\x03Map\x94\x93\x94)\x81\x94K\x01\x8c\x01a\x94s.",
    ),
    (
        bucket.Cache,
        {"b": 2, 1: 3},
        b"cbucket._bucket\n_cache_of\np0\n(cbucket\nCache\np1\nI7\ntp2\nRp3\nVb\np4\nI2\nsI1\nI3\ns.",
    ),
    (
        bucket.Cache,
        {"b": 2, 1: 3},
        b"\x80\x02cbucket._bucket\n_cache_of\nq\x00cbucket\nCache\nq\x01K\x07\x86q\x02Rq\x03"
        b"(X\x01\x00\x00\x00bq\x04K\x02K\x01K\x03u.",
    ),
    (
        bucket.Cache,
        {"b": 2, 1: 3},
        b"\x80\x04\x95E\x00\x00\x00\x00\x00\x00\x00\x8c\x0ebucket._bucket\x94\x8c\t_cache_of\x94\x93\x94\x8c\x06bucket\x94"
        b"\x8c\x05Cache\x94\x93\x94K\x07\x86\x94R\x94(\x8c\x01b\x94K\x02K\x01K\x03u.",
    ),
]


class NamedMap(bucket.Map):
    """A class with a constructor and attributes of its own."""

    def __init__(self, name):
        super().__init__({1: 2})
        self.tags = [name]


class NamedSet(bucket.Set):
    def __init__(self, name):
        super().__init__([1])
        self.tags = [name]


class NamedCache(bucket.Cache):
    def __init__(self, name):
        super().__init__(7)
        self[1] = 2
        self.tags = [name]


class Slotted(bucket.Map):
    __slots__ = ("tag",)


class Copies(unittest.TestCase):
    def test_a_copy_and_its_original_are_apart(self):
        for kind in KINDS:
            for copies in COPIES:
                made, model = filled(kind, 300)
                other = copies(made)
                self.assertEqual((type(other), contents(other)), (type(made), model))
                made.clear()
                put(made, kind.key(900), 1)
                self.assertEqual(contents(other), model)
                del other
                self.assertEqual(len(made), 1)

    def test_a_copy_of_a_class_below_has_its_attributes(self):
        for kind, size in (NamedMap, 1), (NamedSet, 1), (NamedCache, 1):
            made = kind("a")
            for number, copies in enumerate(COPIES):
                other = copies(made)
                self.assertTrue(other == made and len(other) == size)
                if number != 2:
                    self.assertEqual((type(other), other.tags), (kind, ["a"]))
                    self.assertEqual(other.tags is made.tags, number == 0)
        self.assertEqual(pickle.loads(pickle.dumps(NamedCache("a"))).maxsize, 7)
        made = Slotted(a=1)
        made.tag = 5
        if sys.version_info >= (3, 11):
            self.assertEqual(copy.copy(made).tag, 5)

    def test_a_deep_copy_copies_values_and_comes_back_to_itself(self):
        made = bucket.Map(a=[1])
        made["itself"] = made
        shallow, deep = copy.copy(made), copy.deepcopy(made)
        self.assertTrue(shallow["a"] is made["a"] and shallow["itself"] is made)
        self.assertTrue(deep["a"] == [1] and deep["a"] is not made["a"] and deep["itself"] is deep)
        for protocol in range(2, pickle.HIGHEST_PROTOCOL + 1):
            loaded = pickle.loads(pickle.dumps(made, protocol))
            self.assertTrue(loaded["itself"] is loaded and loaded["a"] == [1])
        del made["itself"], deep["itself"], shallow["itself"], loaded["itself"]

    def test_a_copy_that_fails_leaves_the_original(self):
        class Refuses:
            def __deepcopy__(self, memo):
                raise ZeroDivisionError

            def __reduce__(self):
                raise ZeroDivisionError

        made = bucket.Map(a=Refuses())
        self.assertIs(raised(copy.deepcopy, made), ZeroDivisionError)
        self.assertIs(raised(pickle.dumps, made), ZeroDivisionError)
        self.assertEqual(list(made), ["a"])

    def test_older_pickles_are_read(self):
        for kind, pairs, pickled in OLDER_PICKLES:
            made = pickle.loads(pickled)
            self.assertEqual((type(made), list(made.items())), (kind, list(pairs.items())))
            if kind is bucket.Cache:
                self.assertEqual((made.maxsize, made.cache_info()), (7, (0, 0, 7, 2)))

    def test_a_pickle_has_no_seed(self):
        seed = bytes(range(100, 116))
        bucket.seeded(seed)
        for made in bucket.Map({1: 2, "a": 3}), bucket.Set([1, "a"]):
            self.assertNotIn(seed, pickle.dumps(made))
        bucket.seeded(None)


class Collected(unittest.TestCase):
    def test_no_pair_stays_behind(self):
        def play():
            for kind in KINDS:
                made, model = filled(kind, 500)
                other = made.copy()
                for number in range(0, 300, 2):
                    made.discard(kind.key(number)) if kind in SETS else made.pop(kind.key(number), None)
                made.update(other)
                other.clear()
                made.pop() if kind in SETS else made.popitem()
                walk = iter(made)
                next(walk)

        nodes_of(self, play)

    def test_keys_and_values_are_held_once(self):
        for kind in KINDS:
            key, value = kind.key(10**6) if kind.key is not text else "".join(["k", "ey"]), Other()
            counts = sys.getrefcount(key), sys.getrefcount(value)
            made = kind.type()
            for _ in range(3):
                put(made, key, value)
            held = 0 if kind in SETS else 1
            self.assertEqual((sys.getrefcount(key), sys.getrefcount(value)), (counts[0] + 1, counts[1] + held))
            list(made), repr(made), made == made.copy(), key in made
            if kind not in SETS:
                made.get(key), made[key], made.setdefault(key), list(made.items()), list(made.values()), dict(made)
            self.assertEqual((sys.getrefcount(key), sys.getrefcount(value)), (counts[0] + 1, counts[1] + held))
            made.clear()
            self.assertEqual((sys.getrefcount(key), sys.getrefcount(value)), counts)

    def test_cycles_are_collected(self):
        def cycles():
            for make in bucket.Map, bucket.Cache, NamedMap.__mro__[1]:
                made = make()
                for number in range(200):
                    made[number] = made
                    made[str(number)] = [made, iter(made), made.items()]

        nodes_of(self, cycles)
        made = bucket.Map()
        made["itself"] = made.values()
        gone = weakref.ref(made)
        del made
        gc.collect()
        self.assertIsNone(gone())

    def test_weak_references(self):
        for kind in KINDS:
            made, _ = filled(kind, 3)
            seen = []
            gone = weakref.ref(made, seen.append)
            self.assertIs(gone(), made)
            del made
            self.assertEqual((gone(), seen), (None, [gone]))

    def test_collections_in_collections_let_go_without_a_deep_stack(self):
        def deep():
            for make in bucket.Map, bucket.Cache:
                made = make()
                for _ in range(200_000):
                    outer = make()
                    outer[1] = made
                    made = outer
                del made, outer

        nodes_of(self, deep)


class Threads(unittest.TestCase):
    def in_threads(self, *works):
        """Runs these concurrently, and lets them take turns often."""
        interval = sys.getswitchinterval()
        sys.setswitchinterval(1e-5)
        threads = [threading.Thread(target=work) for work in works]
        for thread in threads:
            thread.start()
        for thread in threads:
            thread.join()
        sys.setswitchinterval(interval)

    def test_four_threads_write_one_collection(self):
        for kind in MAPS + SETS:
            made = kind.type()

            def write(thread):
                for number in range(thread, 12_000, 4):
                    put(made, kind.key(number), number)

            self.in_threads(*[lambda thread=thread: write(thread) for thread in range(4)])
            self.assertEqual(len(made), 12_000)
            self.assertTrue(all(kind.key(number) in made for number in range(12_000)))

    def test_four_threads_write_one_cache_and_each_pair_that_goes_is_given_once(self):
        for kind in CACHES:
            made, gone = bucket.Cache(512), [[], [], [], []]

            def write(thread):
                for number in range(thread, 12_000, 4):
                    pair = made.put(kind.key(number), number)
                    if pair is not None:
                        gone[thread].append(pair)

            self.in_threads(*[lambda thread=thread: write(thread) for thread in range(4)])
            pairs = sum(gone, list(made.items()))
            self.assertEqual(sorted(value for _, value in pairs), list(range(12_000)))
            self.assertTrue(all(key == kind.key(value) for key, value in pairs))

    def test_reading_all_while_another_thread_writes_gives_the_pairs_that_stay(self):
        for kind in MAPS + SETS:
            made, model = filled(kind, 200)
            is_over, reads = threading.Event(), []

            def write():
                number = 500
                while not is_over.is_set():
                    put(made, kind.key(number), number)
                    made.discard(kind.key(number)) if kind in SETS else made.pop(kind.key(number))
                    number = 500 + (number + 1) % 1000
                    # Otherwise hardly any reading ends without a change of the size.
                    time.sleep(0.001)

            def read():
                for _ in range(200):
                    try:
                        reads.append(list(made))
                    except RuntimeError:
                        pass
                is_over.set()

            self.in_threads(write, read)
            for keys in reads:
                self.assertTrue(len(set(keys)) == len(keys) <= 201 and set(keys) >= set(model))


if __name__ == "__main__":
    unittest.main()
