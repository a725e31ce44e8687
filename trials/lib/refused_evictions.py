"""Caches that grow and shrink while random allocations fail.

  refused_evictions.py write FOLDER    writes the lines of each run to FOLDER/SEED
  refused_evictions.py judge FOLDER    judges the runs FOLDER/SEED, whose first line is their status
                                       and the number of allocations that failed

If an allocation fails, it is unknown which old buckets have moved. They move in order and each as a
whole, room that a failed move has made is used by the next, and a put or an eviction in a bucket fails
until the last of them has moved. So a model that moves all at once knows the place of each pair.
A touch never fails: it makes its key the newest of all or, if its old bucket hasn't moved, the newest
there; the model keeps an order for each case, and an eviction excludes those that it doesn't fit.
No pair is removed, since that would leave a different free place. A call that fails changes nothing
in the model, and a run has at most as many of them as allocations that failed.
"""

import os
import sys
from collections import Counter

from beside import HASHES, REFUSABLE
from chance import Chance
from eviction_order import MOST, OWN, Cache

RUNS = 48
PHASES = 40
CALLS = 90
SLOTS = 4096

# For each hash, a key whose home is given by a byte.
KEYS = {
    "spread": lambda home, number: number << 8 | home,
    "id": lambda home, number: home << 56 | number,
}


def lines_of(seed):
    """The lines of a run: the minimum is raised and lowered in turn, and pairs are put and evicted."""
    chance = Chance(seed)
    name = sorted(KEYS)[seed % 2]
    key_of = KEYS[name]
    # Eight homes have more keys than a bucket has own slots, however long the array; the others a few.
    # The first and the last buckets stay empty, so that changing the minimum resizes.
    crowd = [key_of(8 * home + 32, number) for home in range(8) for number in range(OWN + 8)]
    keys = [key_of(home, number) for home in range(32, 96) for number in range(4)]
    yield f"new cache {name} 1 {MOST}"
    for phase in range(PHASES):
        for _ in range(CALLS):
            yield line(chance, chance.pick(chance.pick([keys, crowd, crowd])))
        yield f"release {SLOTS}" if phase % 2 else f"reserve {SLOTS}"


def line(chance, key):
    chosen = chance.below(16)
    if chosen < 7:
        return f"put {key} {key}"
    return f"touch {key}" if chosen < 13 else f"evict {key}"


def write(folder):
    for seed in range(1, RUNS + 1):
        first, *calls = lines_of(seed)
        with open(f"{folder}/{seed}", "w") as file:
            file.write(f"{first}\n" + "".join(f"{call}\nslots\n" for call in calls))


def follow(cache, call, reply, slots):
    """Takes a call, its reply and the slots after it, and returns whether the reply is right."""
    verb, word = call.split()[:2]
    if reply == "refused 3" and verb in REFUSABLE:
        cache.seen[f"refused {verb}"] += 1
    elif verb in ("reserve", "release"):
        if reply != word:
            return False
    else:
        return cache.follow(call, reply, slots)
    if slots // OWN != len(cache.buckets):
        cache.resize(slots // OWN)
    return True


def judge_run(seed, status, refusals, replies):
    """What happened in a run. The first reply is to the line that makes the cache."""
    first, *calls = lines_of(seed)
    cache = Cache(HASHES[first.split()[2]], may_be_refused=True)
    if status == 3 and replies and replies[-1] == "no memory":
        replies.pop()
        cache.seen["ended"] += 1
    elif status != 0 or len(replies) != 2 * len(calls) + 1:
        sys.exit(f"seed {seed}: status {status} and {len(replies)} replies")
    for number, (reply, slots) in enumerate(zip(replies[1::2], replies[2::2])):
        if not follow(cache, calls[number], reply, int(slots)):
            sys.exit(f"seed {seed}, line {2 * number + 2}: {calls[number]} answered {reply}")
    refused = sum(cache.seen[f"refused {verb}"] for verb in REFUSABLE)
    if refused > refusals:
        sys.exit(f"seed {seed}: {refused} calls failed, but only {refusals} allocations")
    cache.seen["failed allocations"] = refusals
    return cache.seen


def judge(folder):
    seen = Counter()
    for seed in sorted(os.listdir(folder), key=int):
        with open(f"{folder}/{seed}") as file:
            head, *replies = file.read().splitlines()
        status, refusals = map(int, head.split())
        seen += judge_run(int(seed), status, refusals, replies)
        seen["runs"] += 1
    happens = {"growths": 100, "shrinkages": 100, "evicted in use": 1000, "refused evict": 20}
    if any(seen[name] < least for name, least in happens.items()):
        sys.exit(f"too little happened: {dict(seen)}")
    print(", ".join(f"{name} {number}" for name, number in sorted(seen.items())))


if __name__ == "__main__":
    {"write": write, "judge": judge}[sys.argv[1]](sys.argv[2])
