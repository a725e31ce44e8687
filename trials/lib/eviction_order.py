"""Caches that grow and shrink, checked against a model of each bucket's LRU order.

  eviction_order.py PROGRAM    runs PROGRAM on the lines, and judges each reply

After each call the lines ask for the slots, so that the model knows when the array changes. The model
moves all pairs at once: a bucket of the new array changes only after its pairs have moved there.
"""

import subprocess
import sys
from collections import Counter

from beside import HASHES
from chance import Chance

OWN = 32
BLOCK = 4
PHASES = 7
FEW = 8
MOST = 2**63


class Bucket:
    """Own slots, blocks of a chain with its head first, and the LRU order of the own keys, newest first.

    There is one such order, until a key is touched that may or may not have moved from an old bucket;
    `came` then has the old bucket's number, and whether the key was in an own slot there.
    """

    def __init__(self):
        self.own, self.chain, self.orders, self.came = [None] * OWN, [], {()}, {}

    def rows(self):
        return [self.own, *self.chain]

    def keys(self):
        return [key for row in self.rows() for key in row if key is not None]

    def reserve(self, number):
        short = number - sum(row.count(None) for row in self.rows())
        self.chain += [[None] * BLOCK for _ in range(-(-max(short, 0) // BLOCK))]

    def put(self, key):
        row = next((row for row in self.rows() if None in row), None)
        if row is None:
            row = [None] * BLOCK
            self.chain.insert(0, row)
        row[row.index(None)] = key

    def take(self, key):
        row = next(row for row in self.rows() if key in row)
        row[row.index(key)] = None
        self.chain = [block for block in self.chain if block is not row or any_key(block)]
        self.orders = {without(order, key) for order in self.orders}

    def touch(self, key):
        """The key becomes the newest of all, or of those that are still in its old bucket."""
        if key not in self.own:
            return
        orders = {(key, *without(order, key)) for order in self.orders}
        if key in self.came:
            source, was_own = self.came[key]
            orders |= {self.behind(order, key, source) if was_own else order for order in self.orders}
        self.orders = orders

    def behind(self, order, key, source):
        rest = without(order, key)
        last = max((at + 1 for at, it in enumerate(rest) if self.number_of(it) < source), default=0)
        return (*rest[:last], key, *rest[last:])

    def number_of(self, key):
        return self.came.get(key, (-1,))[0]

    def oldest(self, order):
        return order[-1] if order else self.own[0]

    def evict(self, key):
        """Keeps the orders in which this key is the oldest, and returns whether there is one."""
        self.orders = {order for order in self.orders if self.oldest(order) == key}
        return bool(self.orders)


def without(order, key):
    return tuple(it for it in order if it != key)


def any_key(block):
    return any(key is not None for key in block)


class Cache:
    """The buckets by their index, and what has happened to the array so far.

    If allocations may fail, it is unknown which old buckets have moved when a key is touched, until an
    eviction from their home succeeds, or a pair is put there.
    """

    def __init__(self, hash, may_be_refused=False):
        self.hash, self.may_be_refused, self.buckets, self.seen = hash, may_be_refused, [], Counter()

    def index(self, key, length):
        return self.hash(key) * length >> 64

    def home(self, key):
        return self.buckets[self.index(key, len(self.buckets))] if self.buckets else Bucket()

    def resize(self, length):
        """Moves each pair to its new home: listed ones that get own slots become the oldest there."""
        old, self.buckets = self.buckets, [Bucket() for _ in range(length)]
        if old and length:
            self.seen["growths" if length > len(old) else "shrinkages"] += 1
        for number, source in enumerate(old):
            keys = source.keys()
            if length < len(old) or len(keys) > OWN:
                for index, needed in Counter(self.index(key, length) for key in keys).items():
                    self.buckets[index].reserve(needed)
            for key in keys:
                self.home(key).put(key)
                if self.may_be_refused:
                    self.home(key).came[key] = (number, key in source.own)
            for home in {self.index(key, length) for key in keys}:
                self.carry(source.orders, self.buckets[home])

    def carry(self, orders, target):
        """The listed keys of an old bucket that got own slots come after the target's own in its order."""
        came = {tuple(key for key in order if key in target.own) for order in orders}
        target.orders = {(*order, *more) for order in target.orders for more in came}
        self.seen["carried"] += max(len(more) for more in came)

    def evicts(self, key, reply):
        """Returns whether an eviction may have this reply, and if so does it."""
        home = self.home(key)
        if None in home.own:
            return reply == "nothing"
        gone = int(reply.split()[-1]) if reply.startswith("pair") else None
        if reply != f"pair {gone} {gone}" or not home.evict(gone):
            return False
        self.seen["evicted in use" if home.orders != {()} else "evicted"] += 1
        home.take(gone)
        return True

    def answer(self, verb, key):
        """Does the call on the current buckets, and returns the reply."""
        home = self.home(key)
        if key not in home.keys():
            return "absent"
        if verb == "touch":
            home.touch(key)
            return "ok"
        home.take(key)
        return f"pair {key} {key}"

    def follow(self, line, reply, slots):
        """Takes a call, its reply and the slots after it, and returns whether the reply is right."""
        verb, key = line.split()[0], int(line.split()[1])
        length = slots // OWN
        if not self.buckets:
            self.resize(length)
        if verb == "evict" or (verb, reply) == ("put", "ok"):
            # All pairs of this bucket have moved here. A put that finds its key may find it in an old bucket.
            self.home(key).came = {}
        if verb == "evict":
            is_right = self.evicts(key, reply)
        elif verb == "put":
            expected = "present" if key in self.home(key).keys() else "ok"
            if expected == "ok":
                self.home(key).put(key)
            is_right = reply == expected
        else:
            is_right = reply == self.answer(verb, key)
        if length != len(self.buckets):
            self.resize(length)
        return is_right


def lines_of(chance, keys):
    """Phases in which all keys are put, and all but a few removed again."""
    for _ in range(PHASES):
        puts = [f"put {key} {key}" for key in shuffled(chance, keys)]
        removals = [f"remove {key}" for key in shuffled(chance, keys)[FEW:]]
        for call in puts + removals:
            yield call
            if not chance.below(2):
                yield f"touch {chance.pick(keys)}"
            if not chance.below(4):
                yield f"evict {chance.pick(keys)}"


def shuffled(chance, keys):
    return [key for _, key in sorted((chance.below(2**31), key) for key in keys)]


def text_of(name, calls):
    return f"new cache {name} 0 {MOST}\n" + "".join(f"{call}\nslots\n" for call in calls)


def judge(name, calls, replies):
    """What happened to a cache. The first reply is to the line that makes it."""
    if len(replies) != 2 * len(calls) + 1:
        sys.exit(f"{name}: {len(replies)} replies")
    cache = Cache(HASHES[name])
    for number, call in enumerate(calls):
        reply, slots = replies[2 * number + 1 : 2 * number + 3]
        if not cache.follow(call, reply, int(slots)):
            sys.exit(f"{name}, line {2 * number + 2}: {call} answered {reply}")
    return cache.seen


# Hashes, each with keys that spread over the buckets.
CACHES = [
    ("spread", list(range(2048))),
    ("id", [number * 0x9E3779B97F4A7C15 % 2**64 for number in range(2048)]),
]

if __name__ == "__main__":
    for name, keys in CACHES:
        calls = list(lines_of(Chance(1), keys))
        text = text_of(name, calls)
        done = subprocess.run([sys.argv[1]], input=text, capture_output=True, text=True, timeout=60)
        if done.returncode != 0:
            sys.exit(f"{name}: status {done.returncode}")
        seen = judge(name, calls, done.stdout.splitlines())
        if min(seen["growths"], seen["shrinkages"]) < 6 or not seen["carried"] or not seen["evicted in use"]:
            sys.exit(f"{name}: too little happened: {dict(seen)}")
        print(f"{name}: {dict(seen)}")
