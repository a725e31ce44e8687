"""A decorator that caches a bounded number of a function's results: `functools.lru_cache` over bucket.Cache.

    @memo(maxsize=1000)
    def collatz(number): ..

A call whose arguments are one int, str or bytes has it as its key; the key of other arguments is their repr,
which must distinguish them. Run as a program it finds the longest Collatz run below a number, and shows that
the memory stays bounded.
"""

import functools
import sys

import bucket

NOTHING = object()


def memo(maxsize=128):
    def decorate(function):
        answers = bucket.Cache(maxsize)

        @functools.wraps(function)
        def remembered(*arguments, **named):
            key = arguments[0] if len(arguments) == 1 and not named else None
            if type(key) not in (int, str, bytes) or type(key) is int and not -(1 << 63) <= key < 1 << 64:
                # The prefix distinguishes such keys from str arguments, except for one that looks the same.
                key = f"\0{arguments!r}{sorted(named.items())!r}"
            answer = answers.get(key, NOTHING)
            if answer is NOTHING:
                answers[key] = answer = function(*arguments, **named)
            return answer

        remembered.cache_info = answers.cache_info
        remembered.cache_clear = answers.clear
        return remembered

    return decorate


@memo(maxsize=10_000)
def steps(number):
    """The number of steps from a number to 1: an even one is halved, another one is tripled, plus one."""
    if number == 1:
        return 0
    return 1 + steps(number // 2 if number % 2 == 0 else 3 * number + 1)


def main():
    below = int(sys.argv[1]) if len(sys.argv) > 1 else 20_000
    longest = max(range(1, below), key=steps)
    info = steps.cache_info()
    print(f"{longest} takes {steps(longest)} steps, the most below {below}")
    print(f"{info.hits} results were cached, {info.misses} weren't, and {info.currsize} of {info.maxsize} are kept")


if __name__ == "__main__":
    main()
