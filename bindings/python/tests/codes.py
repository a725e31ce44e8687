"""What the module does with each code that reports a failure, tested with a library whose calls all return BUCKET_CODE.

Run by `test` with a module that is linked to such a library."""

import copy
import os

import bucket
from kinds import raised

# A code of a call, and what a look-up and a put do with it. A closed table has no pair yet; one that stays closed is an error.
NO_MEMORY, CLOSED, OPEN, OTHER_KIND, TOO_LONG, UNKNOWN = 3, 4, 5, 6, 8, 99
ROWS = [
    (NO_MEMORY, MemoryError, MemoryError),
    (CLOSED, None, RuntimeError),
    (OPEN, RuntimeError, RuntimeError),
    (OTHER_KIND, RuntimeError, RuntimeError),
    (TOO_LONG, RuntimeError, RuntimeError),
    (UNKNOWN, RuntimeError, RuntimeError),
]
OF_EACH = [lambda made, key: key in made, lambda made, key: made.copy() and None, lambda made, key: list(made)]
OF_PAIRS = [lambda made, key: made.get(key), lambda made, key: made.pop(key, None), lambda made, key: made.items() & {key}]
OF_A_SET = [lambda made, key: made.discard(key)]
PUTS = [lambda made, key: made.update({key: 1}), lambda made, key: made.__setitem__(key, 1), lambda made, key: made.setdefault(key)]
PUTS_OF_A_SET = [lambda made, key: made.add(key), lambda made, key: made.update([key]), lambda made, key: made.__ior__({key})]
# Calls that don't call the library while there is no pair.
SILENT = [len, list, repr, copy.copy, copy.deepcopy, lambda made: made.clear(), lambda made: made == made.copy()]


def main():
    tried = 0
    for code, of_a_read, of_a_put in ROWS:
        os.environ["BUCKET_CODE"] = str(code)
        for kind in bucket.Map, bucket.Cache, bucket.Set:
            is_set = kind is bucket.Set
            for key in 1, -1, 1 << 63, "a", b"a":
                for call in OF_EACH[:1] + (OF_A_SET if is_set else OF_PAIRS[:2]):
                    assert raised(call, kind(), key) is of_a_read, (code, kind, key)
                    tried += 1
                for call in PUTS_OF_A_SET if is_set else PUTS:
                    made = kind()
                    assert raised(call, made, key) is of_a_put, (code, kind, key)
                    assert len(made) == 0 and list(made) == []
                    tried += 1
            for call in SILENT:
                assert raised(call, kind()) is None, (code, kind, call)
                tried += 1
    print(f"{tried} calls with codes of failures: each found nothing, or raised")


main()
