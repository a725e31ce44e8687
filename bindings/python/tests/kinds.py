"""The types of the module bucket, filled together with a dict or a set, for tests."""

import collections
import gc
import sys

import bucket
from bucket import _bucket


def word(number):
    return number * 7919 - 1000


def text(number):
    return f"key {number}"


def raw(number):
    return b"key %d" % number


def mixed(number):
    """Of every five keys one is an int below 2**63, one an int above, one an ASCII str, one another str, one bytes."""
    return [word(number), (1 << 63) + number, text(number), f"schlüssel {number}", raw(number)][number % 5]


def alike(number):
    """Of every six keys a str and bytes share a hash, and four ints from 2**63 on share another."""
    group, member = divmod(number, 6)
    return [text(group), raw(group)][member] if member < 2 else (1 << 63) + group + (member - 2) * sys.hash_info.modulus


KEYS = [word, text, raw, mixed, alike]
Kind = collections.namedtuple("Kind", "type key")
MAPS = [Kind(bucket.Map, key) for key in KEYS]
SETS = [Kind(bucket.Set, key) for key in KEYS]
CACHES = [Kind(lambda: bucket.Cache(1 << 14), key) for key in KEYS]
KINDS = [*MAPS, *CACHES, *SETS]


class Model(collections.OrderedDict):
    """The contents of a Cache, in LRU order."""

    peek = dict.get

    def __init__(self, maxsize):
        super().__init__()
        self.maxsize = maxsize

    def get(self, key, default=None):
        if key in self:
            self.move_to_end(key)
        return self.peek(key, default)

    def put(self, key, value):
        """Puts a pair, and returns the evicted one, or None."""
        self[key] = value
        self.move_to_end(key)
        return self.popitem(last=False) if len(self) > self.maxsize else None


class Other:
    """A value of a class of its own."""


def put(made, key, value):
    if isinstance(made, (bucket.Set, set)):
        made.add(key)
    else:
        made[key] = value


def filled(kind, count):
    """A collection of that many keys, and a dict or a set of the same."""
    made, model = kind.type(), {}
    for number in range(count):
        put(made, kind.key(number), number)
        model[kind.key(number)] = number
    return made, set(model) if kind in SETS else model


def contents(made):
    """The contents of a collection, with each key looked up."""
    if isinstance(made, bucket.Set):
        return {key for key in made if key in made}
    look = made.peek if hasattr(made, "peek") else made.get
    return {key: look(key) for key in made}


def raised(call, *arguments, **options):
    """The type of the exception that a call raises, or None."""
    try:
        call(*arguments, **options)
    except Exception as error:
        return type(error)
    return None


def nodes_of(test, call):
    """Makes a call, and asserts that no pair is leaked."""
    gc.collect()
    before = _bucket._nodes()
    call()
    gc.collect()
    test.assertEqual(_bucket._nodes(), before)
