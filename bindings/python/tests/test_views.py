"""Iterators and views. The expected results are those of a dict and a set."""

import itertools
import operator
import pickle
import unittest

import bucket
from kinds import CACHES, KINDS, MAPS, SETS, filled, put, raised

ITERATORS = [iter, lambda made: iter(made.keys()), lambda made: iter(made.values()), lambda made: iter(made.items())]
CHANGES = [
    lambda made, key: put(made, key(5000), 1),
    lambda made, key: made.pop(key(1)) if hasattr(made, "keys") else made.remove(key(1)),
    lambda made, key: made.clear(),
    lambda made, key: made.popitem() if hasattr(made, "keys") else made.pop(),
]

OPERATORS = [operator.or_, operator.and_, operator.sub, operator.xor]
COMPARISONS = [operator.eq, operator.ne, operator.lt, operator.le, operator.gt, operator.ge]


class Counted:
    """A value that can't be hashed, returns the same result from each comparison, and counts them."""

    __hash__ = None
    compared = 0

    def __init__(self, answer):
        self.answer = answer

    def __eq__(self, other):
        Counted.compared += 1
        return self.answer


def outcome(call, *arguments):
    """The result of a call, with its type, or the type of the exception that it raises."""
    try:
        returned = call(*arguments)
    except Exception as error:
        return type(error)
    return type(returned), returned


class Iterations(unittest.TestCase):
    def test_an_iteration_gives_each_once_at_each_size(self):
        for kind in KINDS:
            for count in 0, 1, 2, 63, 64, 65, 128, 1000:
                made, model = filled(kind, count)
                self.assertEqual(sorted(made, key=repr), sorted(model, key=repr))
                if kind not in SETS:
                    self.assertEqual(list(made.items()), list(zip(made.keys(), made.values())))
                    self.assertEqual(dict(made.items()), model)

    def test_a_size_change_ends_an_iteration(self):
        for kind in KINDS:
            for iterate in ITERATORS if kind not in SETS else ITERATORS[:1]:
                for change in CHANGES:
                    for steps in 0, 1, 199, 200:
                        made, model = filled(kind, 200)
                        for tried in made, model:
                            walk = iterate(tried)
                            for _ in range(steps):
                                next(walk)
                            change(tried, kind.key)
                            self.assertIs(raised(next, walk), RuntimeError)
                            self.assertIs(raised(next, walk), RuntimeError)

    def test_a_change_that_leaves_the_size_ends_an_iteration_too(self):
        made = bucket.Map({1: 1, "a": 2})
        walk = iter(made)
        made[5] = made.pop(1)
        self.assertIs(raised(next, walk), RuntimeError)

    def test_an_iterator_at_its_end_stays_there(self):
        for kind in KINDS:
            made, _ = filled(kind, 3)
            walk = iter(made)
            self.assertEqual(len(list(walk)), 3)
            put(made, kind.key(9), 9)
            self.assertEqual(list(walk), [])

    def test_an_iterator_tells_how_many_are_left(self):
        for kind in KINDS:
            made, _ = filled(kind, 100)
            walk = iter(made)
            for left in range(100, 0, -1):
                self.assertEqual(operator.length_hint(walk), left)
                next(walk)
            self.assertEqual((operator.length_hint(walk), list(walk), operator.length_hint(walk)), (0, [], 0))
            walk = iter(made)
            made.clear()
            self.assertEqual(operator.length_hint(walk), 0)

    def test_a_pickle_of_an_iterator_has_the_rest(self):
        for kind in KINDS:
            for iterate in ITERATORS if kind not in SETS else ITERATORS[:1]:
                made, _ = filled(kind, 100)
                walk = iterate(made)
                for _ in range(70):
                    next(walk)
                other = pickle.loads(pickle.dumps(walk))
                self.assertEqual(list(other), list(walk))
                self.assertEqual(list(pickle.loads(pickle.dumps(walk))), [])

    def test_iterators_and_views_are_made_by_collections_alone(self):
        made = bucket.Map()
        for kind in type(iter(made)), type(made.keys()), type(made.values()), type(made.items()):
            self.assertIs(raised(kind), TypeError)


class Views(unittest.TestCase):
    def test_views_are_live(self):
        for kind in MAPS + CACHES:
            made, model = filled(kind, 3)
            keys, values, items = made.keys(), made.values(), made.items()
            made[kind.key(5)] = model[kind.key(5)] = 5
            self.assertEqual((len(keys), len(values), len(items)), (4, 4, 4))
            self.assertEqual((set(keys), sorted(values), dict(items)), (set(model), sorted(model.values()), model))
            made.clear()
            self.assertEqual((list(keys), list(values), list(items)), ([], [], []))

    def test_views_are_asked(self):
        made = bucket.Map({1: "one", "a": [5]})
        self.assertTrue(1 in made.keys() and 2 not in made.keys() and None not in made.keys())
        self.assertTrue((1, "one") in made.items() and ("a", [5]) in made.items())
        for item in (1, "two"), (2, "one"), (1,), [1, "one"], 1, None, (None, 1):
            self.assertNotIn(item, made.items())
        self.assertTrue([5] in made.values() and "one" in made.values() and 1 not in made.values())

    def test_views_have_the_operations_of_sets(self):
        samples = [{}, {1: 1}, {1: 1, "a": 2}, {"a": 2, b"b": 3}, {1: 2}, dict.fromkeys(range(100), 0)]
        for left in samples:
            for right in samples:
                for view in "keys", "items":
                    one, other = getattr(bucket.Map(left), view)(), getattr(bucket.Map(right), view)()
                    plain, second = getattr(left, view)(), getattr(right, view)()
                    for operate in OPERATORS:
                        for made in operate(one, other), operate(one, second), operate(plain, other), operate(one, set(second)):
                            self.assertEqual((made, type(made)), (operate(plain, second), set))
                        self.assertEqual(operate(one, list(second)), operate(plain, list(second)))
                        self.assertEqual(operate(set(plain), other), operate(set(plain), second))
                    for compare in COMPARISONS:
                        wanted = compare(plain, second)
                        for pair in (one, other), (one, second), (plain, other), (one, set(second)), (set(plain), other):
                            self.assertEqual(compare(*pair), wanted)
                    self.assertEqual(one.isdisjoint(other), plain.isdisjoint(second))
                    self.assertEqual(one.isdisjoint(list(second)), plain.isdisjoint(second))
        keys = bucket.Map(a=1).keys()
        self.assertTrue(keys != ["a"] and keys != 5 and raised(lambda: keys < ["a"]) is TypeError)
        self.assertIs(raised(lambda: keys & 5), TypeError)
        self.assertIs(raised(lambda: bucket.Map(a=[]).items() & {1}), TypeError)
        values = bucket.Map(a=1).values()
        self.assertTrue(values == values and values != bucket.Map(a=1).values() and raised(lambda: values & {1}) is TypeError)

    def test_views_meet_any_iterable_as_those_of_a_dict(self):
        others = [(), (1,), (1, 2), ((1, 2),), [1, 2], [(1, 2), 5], "ab", b"ab", range(3), {1: 2}, {1: 2}.values(), {1, "a"},
                  frozenset([(1, 2)]), type("Below", (set,), {})([(1, 2), "a"]), None, 5]
        for plain in {}, {1: 2}, {1: 2, "a": 3}:
            for view in "keys", "items":
                own, model = getattr(bucket.Map(plain), view)(), getattr(plain, view)()
                for other in others:
                    for operate in OPERATORS + COMPARISONS:
                        self.assertEqual(outcome(operate, own, other), outcome(operate, model, other), (operate, view, other))
                        self.assertEqual(outcome(operate, other, own), outcome(operate, other, model), (operate, view, other))
                    self.assertEqual(outcome(own.isdisjoint, other), outcome(model.isdisjoint, other), (view, other))

    def test_values_that_have_no_hash(self):
        samples = [{}, {1: []}, {1: [], 2: []}, {1: [5], 2: 3}, {1: 2}, {1: 2, 2: []}, {1: 2, 3: 4, 5: 6}, {2: [], 1: [], 3: 1}]
        iterables = [[], [(2, 3)], {(2, 3)}, {(1, 2)}, {(2, 3), (1, 2), 7}, frozenset([(2, 3), 8, 9]), [(1, []), (1, 2)], ((1, 2),)]
        for left in samples:
            own = bucket.Map(left).items()
            # If the view's pairs are looked up in a set, the order decides whether one without a hash is looked up.
            models = [dict(pairs).items() for pairs in itertools.permutations(left.items())]
            for right in samples + iterables:
                second = right.items() if isinstance(right, dict) else right
                for call in OPERATORS + COMPARISONS + [lambda one, two: one.isdisjoint(two)]:
                    for other in [second] if second is right else [second, bucket.Map(right).items()]:
                        self.assertIn(outcome(call, own, other), [outcome(call, model, second) for model in models])
                # The left one of two views runs the operator, and xor of a dict's view hashes the pairs of any other type.
                for operate in OPERATORS if second is right else OPERATORS[:3]:
                    self.assertIn(outcome(operate, second, own), [outcome(operate, second, model) for model in models])

    def test_operators_compare_values_as_often_as_those_of_a_dict(self):
        for operate, answer in (operator.and_, False), (operator.xor, True):
            for sizes in (3, 3), (3, 5), (5, 3):
                one, other = ({number: Counted(answer) for number in range(size)} for size in sizes)
                if answer:
                    one, other = ({number: value if number < 3 else 7 for number, value in each.items()} for each in (one, other))
                Counted.compared = 0
                wanted = outcome(operate, one.items(), other.items()), Counted.compared
                self.assertEqual(wanted[1], 3)
                for second in bucket.Map(other).items(), other.items():
                    Counted.compared = 0
                    self.assertEqual((outcome(operate, bucket.Map(one).items(), second), Counted.compared), wanted)

    def test_a_view_that_changes_in_an_operator(self):
        class Changing:
            def __eq__(self, other):
                made[len(made)] = 5
                return False

            __hash__ = None

        for call in operator.and_, operator.xor, operator.eq, lambda one, two: one.isdisjoint(two):
            for model in True, False:
                made = ({} if model else bucket.Map()) | {number: Changing() for number in range(4)}
                other = {number: Changing() for number in range(4)}
                got = outcome(call, made.items(), other.items()), len(made) > 4
                if model:
                    wanted = got
                self.assertEqual(got, wanted)

    def test_views_know_their_mapping(self):
        made = bucket.Map(a=1)
        for view in made.keys(), made.values(), made.items():
            self.assertEqual(view.mapping["a"], 1)
            self.assertIs(raised(operator.setitem, view.mapping, "b", 2), TypeError)
            self.assertIs(raised(pickle.dumps, view), TypeError)

    def test_repr_of_a_view(self):
        made = bucket.Map(a=1)
        self.assertEqual(repr(made.keys()), "map_keys(['a'])")
        self.assertEqual(repr(made.values()), "map_values([1])")
        self.assertEqual(repr(made.items()), "map_items([('a', 1)])")
        made["a"] = made.values()
        self.assertEqual(repr(made.values()), "map_values([map_values([...])])")
        del made["a"]


if __name__ == "__main__":
    unittest.main()
