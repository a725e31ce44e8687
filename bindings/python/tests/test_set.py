"""The methods and operators of a set that Set has. The expected results are those of a set."""

import collections
import itertools
import operator
import unittest

import bucket
from kinds import SETS, contents, filled, raised

OPERATORS = [operator.or_, operator.and_, operator.sub, operator.xor]
INTO = [operator.ior, operator.iand, operator.isub, operator.ixor]
COMPARISONS = [operator.eq, operator.ne, operator.lt, operator.le, operator.gt, operator.ge]
OF_MANY = ["union", "intersection", "difference", "update", "intersection_update", "difference_update"]
OF_ONE = ["symmetric_difference", "symmetric_difference_update", "issubset", "issuperset", "isdisjoint"]
SAMPLES = [[], [1], [1, 2], ["a", 1, b"a"], [2, 3, "a"], list(range(200)), list(range(100, 300)), ["x", 1 << 63]]


class Sets(unittest.TestCase):
    def test_each_construction_gives_what_a_set_does(self):
        for keys in SAMPLES:
            for made in keys, tuple(keys), iter(keys), set(keys), frozenset(keys), dict.fromkeys(keys), bucket.Map.fromkeys(keys):
                self.assertEqual(bucket.Set(made), set(keys))
        self.assertEqual(bucket.Set("abca"), {"a", "b", "c"})
        self.assertEqual(bucket.Set(), set())
        for arguments in (5,), (None,), ([], []):
            self.assertIs(raised(bucket.Set, *arguments), TypeError)
        self.assertIs(raised(bucket.Set, keys=[]), TypeError)
        made = bucket.Set([1])
        made.__init__([2])
        self.assertEqual(made, {2})
        made.__init__()
        self.assertEqual(made, set())

    def test_operators_of_two_sets_are_those_of_a_set(self):
        for left, right in itertools.product(SAMPLES, SAMPLES):
            for operate in OPERATORS:
                wanted = operate(set(left), set(right))
                for kind in bucket.Set, set, frozenset:
                    made = operate(bucket.Set(left), kind(right))
                    self.assertEqual((made, type(made)), (wanted, bucket.Set))
                for kind in set, frozenset:
                    made = operate(kind(left), bucket.Set(right))
                    self.assertEqual((made, type(made)), (wanted, kind))

    def test_operators_that_change_their_left_side_keep_the_object(self):
        for left, right in itertools.product(SAMPLES, SAMPLES):
            for operate in INTO:
                plain = operate(set(left), set(right))
                for kind in bucket.Set, set, frozenset:
                    made = bucket.Set(left)
                    self.assertIs(operate(made, kind(right)), made)
                    self.assertEqual(contents(made), plain)
                made = set(left)
                self.assertEqual(operate(made, bucket.Set(right)), plain)

    def test_operators_of_a_set_and_itself(self):
        for keys, operate in itertools.product(SAMPLES, INTO):
            made, plain = bucket.Set(keys), set(keys)
            self.assertEqual(operate(made, made), operate(plain, plain))
        for name in OF_MANY + OF_ONE:
            made, plain = bucket.Set("ab"), set("ab")
            self.assertEqual(getattr(made, name)(made), getattr(plain, name)(plain), name)
            self.assertEqual(made, plain, name)

    def test_operators_with_views(self):
        made, view = bucket.Set([1, 2]), {2: 0, 3: 0}.keys()
        for keys in view, bucket.Map.fromkeys([2, 3]).keys():
            for operate, into in zip(OPERATORS, INTO):
                wanted = operate({1, 2}, {2, 3})
                other = made.copy()
                self.assertEqual((operate(made, keys), operate(keys, made)), (wanted, operate({2, 3}, {1, 2})))
                self.assertIs(into(other, keys), other)
                self.assertEqual(other, wanted)
            self.assertTrue(made != keys and bucket.Set([2, 3]) == keys and keys >= bucket.Set([2]) and bucket.Set([2]) < keys)

    def test_operators_with_others_are_type_errors(self):
        made = bucket.Set([1])
        for other in [1], "a", {1: 2}, None, 5, iter([1]), bucket.Map({1: 2}), collections.UserList([1]):
            for operate in OPERATORS + INTO + COMPARISONS[2:]:
                self.assertIs(raised(operate, made, other), TypeError, (operate, other))
            self.assertTrue(made != other and not made == other)
        self.assertEqual(made, {1})

    def test_comparisons_are_those_of_a_set(self):
        for left, right in itertools.product(SAMPLES, SAMPLES):
            for compare in COMPARISONS:
                wanted = compare(set(left), set(right))
                for one, other in (bucket.Set, bucket.Set), (bucket.Set, set), (bucket.Set, frozenset), (set, bucket.Set):
                    self.assertEqual(compare(one(left), other(right)), wanted)
        self.assertNotEqual(bucket.Set([1]), {(1,)})
        self.assertLess(bucket.Set([1]), {1, (1,)})

    def test_methods_take_any_iterables(self):
        kinds = [list, tuple, iter, set, frozenset, dict.fromkeys, bucket.Set, bucket.Map.fromkeys]
        for left, right in itertools.product(SAMPLES, SAMPLES):
            for name, kind in itertools.product(OF_MANY + OF_ONE, kinds):
                made, plain = bucket.Set(left), set(left)
                answer, wanted = getattr(made, name)(kind(right)), getattr(plain, name)(right)
                self.assertEqual((answer, contents(made)), (wanted, plain), (name, kind))
                self.assertIs(type(answer) is bucket.Set, type(wanted) is set)

    def test_methods_of_many_take_none_and_several(self):
        for name, others in itertools.product(OF_MANY, [[], [[1]], [[1, 2], "ab"], [[1], {1, 2}, (1, 5)], [[1]] * 5]):
            made, plain = bucket.Set([1, 2, "a"]), {1, 2, "a"}
            answer, wanted = getattr(made, name)(*others), getattr(plain, name)(*others)
            self.assertEqual((answer, made), (wanted, plain), name)
            self.assertIsNot(answer, made)
        for name in OF_MANY + OF_ONE:
            self.assertIs(raised(getattr(bucket.Set([1]), name), 5), TypeError, name)
        for name in OF_ONE:
            self.assertIs(raised(getattr(bucket.Set([1]), name)), TypeError)
            self.assertIs(raised(getattr(bucket.Set([1]), name), [], []), TypeError)

    def test_what_is_no_key_is_in_no_set(self):
        others = [None, 1.5, (1,), 2]
        made = bucket.Set([1, 2])
        self.assertEqual((made & set(others), made - set(others), made.intersection(others)), ({2}, {1}, {2}))
        self.assertEqual((set(others) & made, set(others) - made), ({2}, {None, 1.5, (1,)}))
        self.assertTrue(made.isdisjoint([None]) and not made.issuperset(others) and bucket.Set([2]).issubset(others))
        for call in made.union, made.update, made.symmetric_difference, made.symmetric_difference_update:
            self.assertIs(raised(call, [None]), TypeError)
        self.assertEqual(made, {1, 2})

    def test_a_symmetric_difference_counts_a_key_once(self):
        made = bucket.Set([1, 2])
        self.assertEqual(made.symmetric_difference([2, 2, 3, 3, 3]), {1, 3})
        made.symmetric_difference_update([2, 2, 3, 3, 3])
        self.assertEqual(made, {1, 3})

    def test_an_update_that_fails_midway(self):
        def steps(*keys):
            yield from keys
            raise ZeroDivisionError

        rows = [("update", {1, 2, 3}), ("difference_update", {2})]
        rows += [("intersection_update", {1, 2}), ("symmetric_difference_update", {1, 2})]
        for name, left in rows:
            made = bucket.Set([1, 2])
            self.assertIs(raised(getattr(made, name), steps(1, 3)), ZeroDivisionError)
            self.assertEqual(contents(made), left, name)

    def test_keys_are_put_and_removed(self):
        for kind in SETS:
            made, model = filled(kind, 30)
            for tried in made, model:
                self.assertIsNone(tried.add(kind.key(40)))
                self.assertIsNone(tried.add(kind.key(1)))
                self.assertIsNone(tried.discard(kind.key(2)))
                self.assertIsNone(tried.discard(kind.key(99)))
                self.assertIsNone(tried.remove(kind.key(3)))
                self.assertIs(raised(tried.remove, kind.key(99)), KeyError)
            self.assertEqual(contents(made), model)
            popped = [made.pop() for _ in range(len(made))]
            self.assertEqual((set(popped), len(popped)), (model, len(model)))
            self.assertIs(raised(made.pop), KeyError)
            made.add("a")
            made.clear()
            self.assertEqual((len(made), bool(made)), (0, False))

    def test_all_is_popped_in_linear_time(self):
        made = bucket.Set(range(100_000))
        self.assertEqual(sum(made.pop() for _ in range(100_000)), sum(range(100_000)))

    def test_repr_shows_the_keys(self):
        class Below(bucket.Set):
            pass

        self.assertEqual((repr(bucket.Set()), repr(bucket.Set([1])), repr(Below("a"))), ("Set()", "Set({1})", "Below({'a'})"))
        self.assertEqual(eval(repr(bucket.Set([1, "a", b"b"])), vars(bucket)), {1, "a", b"b"})

    def test_results_of_a_class_below_are_sets(self):
        class Below(bucket.Set):
            pass

        made = Below([1, 2])
        for other in made.copy(), made | {3}, made & {1}, made.union([3]), made.difference([1]):
            self.assertIs(type(other), bucket.Set)
        made |= {5}
        self.assertIs(type(made), Below)


if __name__ == "__main__":
    unittest.main()
