"""Which objects are keys, and how they are returned."""

import enum
import unittest

import bucket
from kinds import CACHES, KINDS, MAPS, SETS, contents, filled, put, raised

LARGE = 1 << 63
INTS = [0, 1, -1, 127, 1 << 31, -(1 << 31), LARGE - 1, -LARGE, LARGE, LARGE + 1, (1 << 64) - 1]
STRS = ["", "a", "b" * 118, "b" * 119, "b" * 120, "b" * 5000, "ü", "\0", "a\0", "\U0001f600", "\ud800", "\ud83d\ude00", "i" * 8]
BYTES = [text.encode("utf-8", "surrogatepass") for text in STRS] + [b"\xff", bytes(range(256))]
ALL = [*INTS, *STRS, *BYTES]


class Number(int):
    pass


class Ordered(int):
    """Its comparison slot isn't int's, but its equality is."""

    def __lt__(self, other):
        return False


class Text(str):
    pass


class Raw(bytes):
    pass


class Colour(enum.IntEnum):
    RED = 5


class OtherEqual(int):
    def __eq__(self, other):
        return True

    __hash__ = int.__hash__


class OtherHash(str):
    def __hash__(self):
        return 7


class Unhashable(bytes):
    __hash__ = None


class Index:
    def __index__(self):
        return 5


NO_KEYS = [None, 1.0, 1.5, (), (1, 2), [], {}, set(), frozenset(), bytearray(b"a"), memoryview(b"a"), object(), int, 1j, Index()]
NO_KEYS += [OtherEqual(5), OtherHash("a"), Unhashable(b"a")]
NO_INTS = [1 << 64, -LARGE - 1, 1 << 200, -(1 << 200)]


class Keys(unittest.TestCase):
    def test_all_keys_of_a_dict_are_kept_apart(self):
        for kind in bucket.Map, lambda: bucket.Cache(1000):
            made = kind()
            for number, key in enumerate(ALL):
                made[key] = number
            self.assertEqual(len(made), len(ALL))
            for number, key in enumerate(ALL):
                self.assertEqual(made[key], number, repr(key)[:50])
            self.assertEqual(made, dict(zip(ALL, range(len(ALL)))))
            for key in ALL:
                del made[key]
            self.assertEqual(len(made), 0)
        self.assertEqual(bucket.Set(ALL), set(ALL))

    def test_minus_one_is_not_the_largest(self):
        made = bucket.Map({-1: "minus one"})
        self.assertNotIn((1 << 64) - 1, made)
        made[(1 << 64) - 1] = "largest"
        self.assertEqual((made[-1], made[(1 << 64) - 1], len(made)), ("minus one", "largest", 2))

    def test_keys_come_back_as_the_objects_that_were_put(self):
        keys = [int("123456789012"), "".join(["a", "bc"]), bytes([1, 2, 3]), Number(7), Text("seven"), Raw(b"seven"), Colour.RED, True]
        made = bucket.Map.fromkeys(keys)
        self.assertEqual({id(key) for key in made}, {id(key) for key in keys})
        made.update({1: 2, 7: 3, "seven": 4, 5: 6})
        self.assertEqual({id(key) for key in made}, {id(key) for key in keys})
        self.assertEqual({id(made.popitem()[0]) for _ in keys}, {id(key) for key in keys})

    def test_a_class_below_counts_as_its_base(self):
        rows = [(Number(5), 5), (Ordered(5), 5), (Text("a"), "a"), (Raw(b"a"), b"a"), (Colour.RED, 5), (True, 1), (False, 0)]
        for below, base in rows:
            for put, asked in (below, base), (base, below):
                made = bucket.Map({put: "value"})
                self.assertTrue(asked in made and made[asked] == "value" and made.pop(asked) == "value")

    def test_a_key_of_another_type_is_absent_for_whoever_reads(self):
        for kind in KINDS:
            made, model = filled(kind, 7)
            for key in NO_KEYS + NO_INTS:
                self.assertNotIn(key, made)
                if kind in SETS:
                    self.assertIsNone(made.discard(key))
                    self.assertIs(raised(made.remove, key), KeyError)
                    continue
                self.assertIsNone(made.get(key))
                self.assertEqual((made.get(key, 5), made.pop(key, 6)), (5, 6))
                for call in made.__getitem__, made.__delitem__, made.pop:
                    self.assertIs(raised(call, key), KeyError)
                self.assertTrue((key, 1) not in made.items() and key not in made.keys())
            self.assertEqual(contents(made), model)

    def test_a_key_of_another_type_raises_where_it_is_put(self):
        for kind in KINDS:
            made, model = filled(kind, 7)
            calls = [lambda key: put(made, key, 1), lambda key: made.update([key] if kind in SETS else [(key, 1)])]
            if kind not in SETS:
                calls += [made.setdefault, lambda key: made.update([("a", 1), (key, 1)]) or made.pop("a")]
            for call in calls:
                for key in NO_KEYS:
                    self.assertIs(raised(call, key), TypeError, key)
                for key in NO_INTS:
                    self.assertIs(raised(call, key), OverflowError, key)
            if kind not in SETS:
                self.assertEqual(made.pop("a"), 1)
            self.assertEqual(contents(made), model)

    def test_an_error_tells_why(self):
        rows = [
            ([], TypeError, "unhashable type: 'list'"),
            (1.5, TypeError, "a key must be an int, a str or bytes, not 'float'"),
            (OtherHash("a"), TypeError, "as int, str or bytes do, unlike 'OtherHash'"),
            (1 << 64, OverflowError, "from -2**63 up to 2**64 - 1"),
        ]
        for key, error, message in rows:
            with self.assertRaisesRegex(error, message.replace("*", r"\*")):
                bucket.Map()[key] = 1

    def test_a_key_error_has_its_key(self):
        for key in "a", 5, (1, 2), (), None:
            with self.assertRaises(KeyError) as caught:
                bucket.Map()[key]
            self.assertEqual(caught.exception.args, (key,))

    def test_a_class_whose_attributes_raise_is_an_error(self):
        class Meta(type):
            def __getattribute__(cls, name):
                if name in ("__eq__", "__hash__"):
                    raise ZeroDivisionError
                return super().__getattribute__(name)

        class Odd(int, metaclass=Meta):
            def __lt__(self, other):
                return False

        made = bucket.Map({1: 2})
        for call in made.get, made.__contains__, made.pop, made.setdefault, bucket.Cache().get, bucket.Set().add:
            self.assertIs(raised(call, Odd(1)), ZeroDivisionError)
        self.assertEqual(made, {1: 2})


if __name__ == "__main__":
    unittest.main()
