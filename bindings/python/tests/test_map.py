"""The methods of a dict that Map has. The expected results are those of a dict."""

import collections
import sys
import types
import unittest

import bucket
from kinds import CACHES, MAPS, contents, filled, raised


class Maps(unittest.TestCase):
    def test_each_construction_gives_what_a_dict_does(self):
        class Pairs:
            def keys(self):
                return ["a", "b"]

            def __getitem__(self, key):
                return key * 2

        rows = [
            ((), {}),
            (({},), {}),
            (({1: 2, "a": b"b"},), {}),
            (([(1, 2), ("a", 3)],), {}),
            ((["ab", [3, 4]],), {}),
            ((iter([(1, 2)]),), {"b": 3}),
            ((Pairs(),), {"b": 5, "self": 6, "pairs": 7}),
            ((collections.OrderedDict(a=1),), {}),
            ((collections.UserDict(a=1),), {}),
            ((types.MappingProxyType({"a": 1}),), {}),
            ((), {"self": 1, "other": 2}),
        ]
        for arguments, more in rows:
            if arguments and hasattr(arguments[0], "__next__"):
                arguments, plain = ([(1, 2)],), {1: 2, "b": 3}
            else:
                plain = dict(*arguments, **more)
            self.assertEqual(bucket.Map(*arguments, **more), plain)
        self.assertEqual(bucket.Map(bucket.Map({1: 2}), a=3), {1: 2, "a": 3})
        self.assertEqual(bucket.Map(bucket.Map({1: 2}).items()), {1: 2})

    def test_each_bad_construction_raises_what_a_dict_does(self):
        class Broken:
            def keys(self):
                raise ZeroDivisionError

        class BrokenItem:
            def keys(self):
                return ["a"]

            def __getitem__(self, key):
                raise ZeroDivisionError

        def steps():
            yield "a", 1
            raise ZeroDivisionError

        rows = [(5,), (None,), ([5],), ([(1, 2, 3)],), (["a"],), ([()],), (Broken(),), (BrokenItem(),), ({}, {}), (lambda: 5,)]
        for arguments in rows:
            self.assertIs(raised(bucket.Map, *arguments), raised(dict, *arguments), arguments)
            self.assertIs(raised(bucket.Map().update, *arguments), raised({}.update, *arguments), arguments)
        made = bucket.Map()
        self.assertIs(raised(made.update, steps()), ZeroDivisionError)
        self.assertEqual(made, {"a": 1})

    def test_a_second_init_updates(self):
        made = bucket.Map(a=1)
        made.__init__(b=2)
        self.assertEqual(made, {"a": 1, "b": 2})

    def test_reads_and_writes_are_those_of_a_dict(self):
        for kind in MAPS + CACHES:
            made, model = filled(kind, 50)
            key, absent = kind.key(9), kind.key(99)
            for tried in made, model:
                self.assertEqual((tried[key], tried.get(key), tried.get(absent), tried.get(absent, 5)), (9, 9, None, 5))
                self.assertEqual((tried.setdefault(key, 7), tried.setdefault(absent, 7), tried[absent]), (9, 7, 7))
                self.assertEqual((tried.pop(absent), tried.pop(absent, None), tried.pop(absent, 3)), (7, None, 3))
                self.assertIsNone(tried.setdefault(absent))
                del tried[absent]
                for call in tried.__getitem__, tried.__delitem__, tried.pop:
                    self.assertIs(raised(call, absent), KeyError)
                tried[key] = None
                self.assertIsNone(tried[key])
            self.assertEqual(contents(made), model)
            self.assertEqual(bool(made), True)
            made.clear()
            self.assertEqual((len(made), bool(made), list(made)), (0, False, []))
            self.assertIs(raised(made.popitem), KeyError)

    def test_a_wrong_number_of_arguments_is_a_type_error(self):
        made = bucket.Map()
        calls = [made.get, made.pop, made.setdefault, made.fromkeys, made.__getitem__, made.__setitem__, made.__contains__]
        for call in calls:
            self.assertIs(raised(call), TypeError)
            self.assertIs(raised(call, 1, 2, 3), TypeError)
        for call in made.popitem, made.clear, made.copy, made.keys, made.values, made.items:
            self.assertIs(raised(call, 1), TypeError)

    def test_fromkeys_makes_the_class_it_is_called_of(self):
        class Below(bucket.Map):
            pass

        class Seen(bucket.Map):
            def __setitem__(self, key, value):
                super().__setitem__(key, [value])

        class Replaced(bucket.Map):
            def __new__(cls):
                return collections.UserDict(z=1)

        class Broken(bucket.Map):
            def __init__(self):
                raise ZeroDivisionError

        self.assertEqual(bucket.Map.fromkeys("ab"), {"a": None, "b": None})
        self.assertEqual(bucket.Map.fromkeys(iter([1, "a"]), 0), {1: 0, "a": 0})
        self.assertIs(type(Below.fromkeys("ab", 1)), Below)
        self.assertEqual(Seen.fromkeys("a", 1), {"a": [1]})
        self.assertEqual(Replaced.fromkeys("a"), collections.UserDict(z=1, a=None))
        self.assertIs(raised(Broken.fromkeys, "a"), ZeroDivisionError)
        self.assertIs(raised(bucket.Map.fromkeys, 5), TypeError)
        self.assertEqual(bucket.Map({1: 2}).fromkeys([3]), {3: None})

    def test_unions_are_those_of_a_dict(self):
        left, right = bucket.Map({0: 0, 1: 1, 2: 1}), bucket.Map({1: "1", 2: 2})
        both = {0: 0, 1: "1", 2: 2}
        for one, other in (left, right), (left, dict(right)), (dict(left), right):
            joined = one | other
            self.assertEqual(joined, both)
            self.assertIs(type(joined), bucket.Map)
        for other in None, 5, [(1, 2)], "ab", {1}, collections.UserList():
            self.assertIs(raised(lambda: left | other), TypeError)
            self.assertIs(raised(lambda: other | left), TypeError)
        self.assertEqual((left, right), ({0: 0, 1: 1, 2: 1}, {1: "1", 2: 2}))
        same = left
        left |= right
        self.assertIs(same, left)
        self.assertEqual(left, both)
        left |= [(9, "nine")]
        left |= left
        self.assertEqual(left, {**both, 9: "nine"})
        self.assertIs(raised(left.__ior__, None), TypeError)
        self.assertEqual(left | bucket.Cache(), left)

    def test_comparisons_are_those_of_a_dict(self):
        made = bucket.Map({1: 2, "a": [3]})
        pairs = {1: 2, "a": [3]}
        for other in pairs, bucket.Map({"a": [3], 1: 2}), collections.OrderedDict(a=[3]) | {1: 2}, collections.UserDict(pairs):
            self.assertTrue(made == other and other == made and not made != other and not other != made)
        for other in {1: 2}, {1: 2, "a": [4]}, {1: 2, "b": [3]}, {1: 2, (): 3}, {1: 2, "a": [3], 5: 6}, {}, 5, None, [(1, 2)]:
            self.assertTrue(made != other and other != made and not made == other and not other == made)
        self.assertEqual(bucket.Map({1: "one"}), {1.0: "one"})
        nan = float("nan")
        self.assertEqual(bucket.Map({1: nan}), {1: nan})
        for compare in made.__lt__, made.__le__, made.__gt__, made.__ge__:
            self.assertIs(compare({}), NotImplemented)

    def test_a_map_has_no_hash(self):
        for made in bucket.Map(), bucket.Set(), bucket.Cache(), bucket.Map().keys(), bucket.Map().items():
            self.assertIs(raised(hash, made), TypeError)
        self.assertIsNone(bucket.Map.__hash__)

    def test_nothing_is_reversed(self):
        class Below(bucket.Map):
            def __getitem__(self, key):
                return super().__getitem__(key)

        made = bucket.Map({0: 1})
        for other in made, Below({0: 1}), bucket.Cache(), bucket.Set(), made.keys(), made.items(), made.values():
            self.assertIs(raised(reversed, other), TypeError)

    def test_missing_is_called_of_a_class_below(self):
        class Doubles(bucket.Map):
            def __missing__(self, key):
                return key * 2

        class Keeps(bucket.Map):
            def __missing__(self, key):
                self[key] = made = []
                return made

        class OfTheObject(bucket.Map):
            def __init__(self):
                self.__missing__ = lambda key: 5

        class Raises(bucket.Map):
            def __missing__(self, key):
                raise ZeroDivisionError

        made = Doubles({1: 1})
        self.assertEqual((made[1], made["ab"], made[1.5], made.get("ab"), len(made)), (1, "abab", 3.0, None, 1))
        groups = Keeps()
        groups["a"].append(1)
        groups["a"].append(2)
        self.assertEqual(groups, {"a": [1, 2]})
        self.assertIs(raised(lambda: OfTheObject()[1]), KeyError)
        self.assertIs(raised(lambda: Raises()[1]), ZeroDivisionError)
        self.assertFalse(hasattr(bucket.Map, "__missing__"))

    def test_popitem_gives_each_pair_once_and_in_linear_time(self):
        for kind in MAPS + CACHES:
            made, model = filled(kind, 12_000)
            seen = [made.popitem() for _ in range(len(made))]
            self.assertEqual(len(seen), len(dict(seen)))
            self.assertTrue(model.items() >= dict(seen).items())
            self.assertTrue(len(made) == 0 and (kind in CACHES or len(seen) == 12_000))

    def test_popitem_goes_on_while_pairs_come(self):
        made = bucket.Map({number: 0 for number in range(100)})
        model = dict(made)
        for number in range(100, 5000):
            key, value = made.popitem()
            self.assertEqual(model.pop(key), value)
            made[number] = model[number] = number
            made[f"{number}"] = model[f"{number}"] = number
            if number % 3:
                key, value = made.popitem()
                self.assertEqual(model.pop(key), value)
        self.assertEqual(made, model)

    def test_repr_shows_the_pairs_and_stops_where_it_comes_back(self):
        class Raises:
            def __repr__(self):
                raise ZeroDivisionError

        class Below(bucket.Map):
            pass

        self.assertEqual(repr(bucket.Map()), "Map({})")
        self.assertEqual(repr(bucket.Map(a=1)), "Map({'a': 1})")
        self.assertEqual(repr(Below({b"a": 1})), "Below({b'a': 1})")
        made = bucket.Map()
        made["itself"] = made
        self.assertEqual(repr(made), "Map({'itself': Map({...})})")
        made["itself"] = [made.values()]
        self.assertEqual(repr(made), "Map({'itself': [map_values([[...]])]})")
        self.assertIs(raised(repr, bucket.Map(a=Raises())), ZeroDivisionError)
        deep, other = bucket.Map(), bucket.Map()
        for _ in range(100_000):
            deep, other = bucket.Map({1: deep}), bucket.Map({1: other})
        self.assertIs(raised(repr, deep), RecursionError)
        self.assertIs(raised(lambda: deep == other), RecursionError)

    def test_it_is_a_mutable_mapping(self):
        for made in bucket.Map(a=1), bucket.Cache():
            self.assertIsInstance(made, collections.abc.MutableMapping)
            self.assertIsInstance(made.keys(), collections.abc.KeysView)
            self.assertIsInstance(made.values(), collections.abc.ValuesView)
            self.assertIsInstance(made.items(), collections.abc.ItemsView)
            self.assertNotIsInstance(made, collections.abc.Hashable)
        self.assertIsInstance(bucket.Set(), collections.abc.MutableSet)
        match bucket.Map(kind="a", size=3):
            case {"kind": "a", "size": size, **rest}:
                self.assertEqual((size, rest), (3, {}))
            case _:
                self.fail("a mapping is matched")
        self.assertEqual(str(bucket.Map[str, int]), "bucket.Map[str, int]")
        self.assertEqual(bucket.Set[int].__args__, (int,))
        self.assertEqual({**bucket.Map(a=1), "b": 2}, {"a": 1, "b": 2})
        self.assertEqual((lambda **pairs: pairs)(**bucket.Map(a=1)), {"a": 1})
        self.assertEqual("%(a)s" % bucket.Map(a=1), "1")
        self.assertEqual("{a}".format_map(bucket.Map(a=1)), "1")

    def test_the_size_in_bytes_grows_with_the_pairs(self):
        for kind in MAPS + CACHES:
            small, large = filled(kind, 0)[0], filled(kind, 5000)[0]
            self.assertGreater(sys.getsizeof(large), sys.getsizeof(small) + 5000 * 24)

    def test_a_write_of_a_value_is_no_change_of_size(self):
        for kind in MAPS + CACHES:
            made, model = filled(kind, 3000)
            seen = {}
            for key, value in made.items():
                made[key] = value + 1
                seen[key] = value
            self.assertEqual(seen, model)
            self.assertEqual(made, {key: value + 1 for key, value in model.items()})


if __name__ == "__main__":
    unittest.main()
