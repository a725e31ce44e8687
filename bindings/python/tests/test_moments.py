"""Foreign code that runs at bad moments, the end of an interpreter, and seeds."""

import os
import subprocess
import sys
import unittest

import bucket
from kinds import Other, nodes_of, raised


class BadMoments(unittest.TestCase):
    """Foreign code that runs in the middle of a call, and changes the collection."""

    def changes(self):
        return [
            lambda made: made.clear(),
            lambda made: made.update({number: number for number in range(1000)}),
            lambda made: [made.popitem() for _ in range(len(made) // 2)],
            lambda made: made.__init__(),
            lambda made: (made.clear(), made.update(a=5)),
        ]

    def test_a_finalizer_that_changes_the_collection(self):
        class Changes:
            def __init__(self, made, change):
                self.made, self.change = made, change

            def __del__(self):
                self.change(self.made)

        lets_go = [
            lambda made: made.clear(),
            lambda made: made.pop("x"),
            lambda made: made.__delitem__("x"),
            lambda made: made.__setitem__("x", 1),
            lambda made: made.update(x=1),
            lambda made: [made.popitem() for _ in range(len(made))],
            lambda made: made.__init__(x=5) if type(made) is bucket.Map else made.__init__(5),
            lambda made: [made.__setitem__(number, 0) for number in range(5000)],
        ]

        def play():
            for make in bucket.Map, bucket.Cache:
                for change in self.changes():
                    for let_go in lets_go:
                        made = make()
                        made.update({number: Other() for number in range(100)})
                        made["x"] = Changes(made, change)
                        raised(let_go, made)
                        self.assertEqual(len(list(made)), len(made))
                        made.clear()
                        made.clear()

        nodes_of(self, play)

    def test_an_equality_that_changes_the_collection(self):
        class Changes:
            change = staticmethod(lambda made: None)
            made = None

            def __eq__(self, other):
                self.change(self.made)
                return True

        for make in bucket.Map, bucket.Cache:
            for change in self.changes():
                for compare in (
                    lambda made, other: made == other,
                    lambda made, other: other == made,
                    lambda made, other: made.items() == other.items(),
                    lambda made, other: 5 in made.values(),
                    lambda made, other: (1, 5) in made.items(),
                    lambda made, other: made.items() <= other.items(),
                ):
                    made, value = make(), Changes()
                    made.update({number: value for number in range(100)})
                    value.made, value.change = made, change
                    raised(compare, made, {number: 5 for number in range(100)})
                    self.assertEqual(len(list(made)), len(made))

    def test_a_repr_that_changes_the_collection(self):
        class Changes:
            def __repr__(self):
                change(made)
                return "changes"

        for make in bucket.Map, bucket.Cache:
            for change in self.changes():
                made = make()
                made.update({number: Changes() for number in range(100)})
                for call in repr, lambda made: repr(made.values()), lambda made: repr(made.items()):
                    raised(call, made)
                self.assertEqual(len(list(made)), len(made))

    def test_what_raises_comes_through(self):
        class Raises:
            def __eq__(self, other):
                raise ZeroDivisionError

            def __hash__(self):
                raise ZeroDivisionError

            def __repr__(self):
                raise ZeroDivisionError

        made = bucket.Map(a=Raises())
        for call in (
            lambda: made == {"a": 1},
            lambda: {"a": 1} == made,
            lambda: 1 in made.values(),
            lambda: ("a", 1) in made.items(),
            lambda: repr(made),
            lambda: made.items() & {1},
        ):
            self.assertIs(raised(call), ZeroDivisionError)
        self.assertIs(raised(lambda: made[Raises()]), KeyError)
        self.assertIs(raised(made.__setitem__, Raises(), 1), TypeError)
        self.assertEqual(list(made), ["a"])

    def test_a_finalizer_that_raises_stops_nothing(self):
        class Raises:
            def __del__(self):
                raise ZeroDivisionError

        unraisable, seen = sys.unraisablehook, []
        sys.unraisablehook = lambda error: seen.append(error.exc_type)
        try:
            made = bucket.Map({number: Raises() for number in range(10)})
            made[3] = 0
            del made[4]
            made.clear()
        finally:
            sys.unraisablehook = unraisable
        self.assertEqual((seen, len(made)), ([ZeroDivisionError] * 10, 0))

    def test_an_update_from_what_changes_meanwhile(self):
        class Changes:
            def __init__(self, other):
                self.other = other

            def __del__(self):
                self.other.update({number: 0 for number in range(1000, 2000)})

        for other in {number: 0 for number in range(100)}, bucket.Map.fromkeys(range(100), 0):
            made = bucket.Map({50: Changes(other)})
            self.assertIs(raised(made.update, other), RuntimeError)
            self.assertEqual(len(list(made)), len(made))


class Ends(unittest.TestCase):
    def run_silently(self, program):
        run = subprocess.run([sys.executable, "-c", program], capture_output=True, check=False, text=True)
        self.assertEqual((run.returncode, run.stdout, run.stderr), (0, "", ""))

    def test_the_end_of_the_interpreter_is_silent(self):
        self.run_silently("""
import builtins, bucket
made = bucket.Map({b"a": 1, 2: 3})
cycle = [bucket.Cache(), made, bucket.Set("ab")]
cycle[0]["cycle"] = cycle
cycle.append(cycle)
walks = [iter(made), iter(made.items()), iter(cycle[0]), iter(cycle[2])]
for walk in walks:
    next(walk)
bucket.kept, builtins.kept, cycle[0]["walks"] = made, cycle, walks

class Late:
    def __init__(self, made):
        self.made = made
    def __del__(self, bucket=bucket, repr=repr, list=list, RuntimeError=RuntimeError):
        try:
            self.made["late"] = 5
            list(self.made.items()), self.made.copy(), self.made == {}, repr(self.made), bucket.Map() | self.made
        except RuntimeError:
            pass

builtins.late = Late(made)
made["late"] = Late(made)
cycle[0]["late"] = Late(cycle[0])
""")

    def test_subinterpreters_have_a_module_of_their_own(self):
        self.run_silently("""
try:
    import _xxsubinterpreters as interpreters
except ImportError:
    try:
        import _interpreters as interpreters
    except ImportError:
        raise SystemExit
import sys
import bucket
made = bucket.Map(a=1)
program = '''
import sys
sys.path = %r
import bucket
made = bucket.Map({1: 2, "a": bucket.Set("xyz")})
assert made == {1: 2, "a": {"x", "y", "z"}} and len(bucket.Cache(5)) == 0
walk = iter(made)
next(walk)
''' % (sys.path,)
for _ in range(3):
    try:
        made_one = interpreters.create("legacy") if sys.version_info >= (3, 13) else interpreters.create(isolated=False)
    except TypeError:
        made_one = interpreters.create()
    error = interpreters.run_string(made_one, program)
    assert error is None, error
    interpreters.destroy(made_one)
assert made == {"a": 1}
""")

    def test_the_module_is_imported_anew(self):
        self.run_silently("""
import sys
import bucket
old = bucket.Map(a=1)
for name in [name for name in sys.modules if name.startswith("bucket")]:
    del sys.modules[name]
import bucket as again
assert again.Map is not type(old)
new = again.Map(old)
assert new == {"a": 1} and old.copy() == {"a": 1} and list(old.items()) == [("a", 1)]
""")


class Seeds(unittest.TestCase):
    def order(self, seed):
        bucket.seeded(seed)
        try:
            return list(bucket.Map.fromkeys(range(1000))) + list(bucket.Set(map(str, range(1000))))
        finally:
            bucket.seeded(None)

    def test_a_seed_gives_one_order(self):
        for seed in bytes(16), bytes(range(16)):
            self.assertEqual(self.order(seed), self.order(seed))
        for seed in b"short", bytes(17), b"":
            self.assertIs(raised(bucket.seeded, seed), ValueError)
        for seed in 5, "a" * 16, bytearray(16):
            self.assertIs(raised(bucket.seeded, seed), TypeError)

    def test_the_environment_gives_the_order(self):
        program = "import bucket; print(list(bucket.Map.fromkeys(map(str, range(1000)))))"

        def output(seed):
            environment = {**os.environ, "PYTHONHASHSEED": seed}
            run = subprocess.run([sys.executable, "-c", program], env=environment, capture_output=True, check=True)
            return run.stdout

        self.assertEqual(output("5"), output("5"))
        self.assertEqual(output("0"), output("0"))


if __name__ == "__main__":
    unittest.main()
