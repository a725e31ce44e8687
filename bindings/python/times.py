"""Times calls of Map, Set and Cache against dict, set and functools.lru_cache: the minimum of some rounds, in nanoseconds. Asserts
nothing, since times depend on the machine.

  times.py [ROUNDS [PAIRS]]
"""

import functools
import random
import sys
import time

import bucket


def best(call, count, rounds):
    least = None
    for _ in range(rounds):
        start = time.perf_counter_ns()
        call()
        took = time.perf_counter_ns() - start
        least = took if least is None else min(least, took)
    return least / count


def loops(kind, keys, asked, absent):
    """Each call by its name, as a loop over the keys; the first fills the collection."""
    made = kind()

    def fill():
        made.clear()
        for key in keys:
            made[key] = None

    def overwrite():
        for key in asked:
            made[key] = 1

    def subscript():
        for key in asked:
            made[key]

    def get():
        call = made.get
        for key in asked:
            call(key)

    def get_absent():
        call = made.get
        for key in absent:
            call(key)

    def is_in():
        for key in asked:
            key in made

    def items():
        for _ in made.items():
            pass

    def copy():
        made.copy()

    def copy_by_loop():
        other = kind()
        for key, value in made.items():
            other[key] = value

    def pop():
        for key in asked:
            made.pop(key)
        fill()

    return {
        "[]= new": fill,
        "[]= present": overwrite,
        "[]": subscript,
        "get": get,
        "get absent": get_absent,
        "in": is_in,
        "items": items,
        "copy": copy,
        "copy by a loop": copy_by_loop,
        "pop and []=": pop,
    }


def compare(name, keys, absent, rounds):
    asked = list(keys)
    random.Random(2).shuffle(asked)
    ours, theirs = loops(bucket.Map, keys, asked, absent), loops(dict, keys, asked, absent)
    for call in ours:
        one, other = best(theirs[call], len(keys), rounds), best(ours[call], len(keys), rounds)
        print(f"{name:5} {len(keys):9,} {call:14} dict {other and one:8.1f}  Map {other:8.1f}  {other / one:5.2f} times")


def compare_caches(rounds):
    numbers = [random.Random(3).randrange(2000) for _ in range(100_000)]

    @functools.lru_cache(maxsize=1000)
    def remembered(number):
        return number

    made = bucket.Cache(1000)

    def ours():
        get, put = made.get, made.__setitem__
        for number in numbers:
            if get(number) is None:
                put(number, number)

    def theirs():
        for number in numbers:
            remembered(number)

    one, other = best(theirs, len(numbers), rounds), best(ours, len(numbers), rounds)
    print(f"int       1,000 get or put   lru_cache {one:5.1f}  Cache {other:6.1f}  {other / one:5.2f} times")


def main():
    rounds = int(sys.argv[1]) if len(sys.argv) > 1 else 3
    sizes = [int(sys.argv[2])] if len(sys.argv) > 2 else [1000, 1_000_000]
    for size in sizes:
        source = random.Random(1)
        words = list({source.getrandbits(60) for _ in range(2 * size)})[: 2 * size]
        compare("int", words[:size], words[size:], rounds)
        texts = [f"key {word % 10**9}" for word in dict.fromkeys(words)]
        texts = list(dict.fromkeys(texts))
        compare("str", texts[: len(texts) // 2], texts[len(texts) // 2 :], rounds)
    compare_caches(rounds)


main()
