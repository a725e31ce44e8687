"""Map, Set and Cache: a dict, a set and a bounded cache over proved hash tables.

    import bucket

    ages = bucket.Map({"Ann": 30}, Bob=27)
    ages["Cid"] = 41  # MemoryError if allocation fails: nothing has changed
    print(len(ages), ages["Ann"], ages | {"Dee": 5})

Keys are ints from -2**63 to 2**64 - 1, strs and bytes, and may be mixed; values are any objects. A bool is
the int that it equals. A subclass of int, str or bytes counts as its base, unless it has its own `__eq__` or
`__hash__`. Any other key is absent for a look-up or a removal; inserting it raises TypeError, or
OverflowError if it is an int.

A Map has all methods of a dict, and a Set all of a set, except for the order: it is that of the slots, and
changes when a pair is put or removed. So nothing can be reversed. A Cache has at most `maxsize` pairs: beyond
that it evicts the least recently used of all pairs.

Keys are hashed with a random seed, a different one in each collection, as is needed if an attacker chooses
the keys; or with PYTHONHASHSEED: see `seeded`. For a str, bytes and an int from 2**63 on, the hash is
computed from Python's own hash.

Threads may share a collection as they share a dict: a call keeps the interpreter's lock.
"""

import os
import sys
from collections import abc

from bucket import _bucket
from bucket._bucket import Cache, CacheInfo, Map, Set, __version__, seeded

__all__ = ["Cache", "CacheInfo", "Map", "Set", "seeded"]

abc.MutableMapping.register(Map)
abc.MutableMapping.register(Cache)
abc.MutableSet.register(Set)
abc.KeysView.register(type(Map().keys()))
abc.ValuesView.register(type(Map().values()))
abc.ItemsView.register(type(Map().items()))

if not sys.flags.ignore_environment and os.environ.get("PYTHONHASHSEED", "").isdecimal():
    seeded(int(os.environ["PYTHONHASHSEED"]).to_bytes(16, "little"))
