"""The answers of an index, and what epochs do to it."""

from rows import each

# One hash for all keys, and key 0 alone.
ONE_KEY = [ ("new index zero 0 64\nput 0 0", "ok\nok")]

STORIES = [
    # The tombstone of each removed pair has an epoch that equals its hash's byte. Once the
    # tombstones are dropped, those slots are used again.
    ("removed keys are absent, whether or not their tombstones are kept", [
        ("new index zero 0 9223372036854775808", "ok"), each(range(32), "put # #", "ok"),
        each(range(4), "remove #", "pair # #"), ("peek 0", "absent"), ("read 3", "absent"),
        ("remove 0", "absent"), ("write 1 5", "absent"), ("count", "28"),
        ("put 32 32", "ok"), ("peek 32", "value 32"), ("count", "29"),
        ("epoch 0 drop", "ok"), ("put 33 33", "ok"), ("count", "30"),
        ("peek 0", "absent"), ("peek 32", "value 32"), ("put 0 40", "ok"),
        ("peek 0", "value 40")]),
    # Key 1 has the hash 1, so epoch 1 equals its byte.
    ("a key is inserted again beside its tombstones", [
        ("new index id 0 64", "ok"),
        each(range(40), "epoch 1 keep\nput 1 1#\nremove 1\nremove 1", "ok\nok\npair 1 1#\nabsent"),
        each(range(40), "epoch # drop\nput 1 2#\nput 1 3\nwrite 1 3#\nremove 1\nhas",
            "ok\nok\npresent\nold 2#\npair 1 3#\nfalse"),
        ("peek 1", "absent")]),
    ("an epoch lasts until the next one, or until a new table", ONE_KEY + [
        ("put 1 1", "ok"), ("epoch 255 keep", "ok"), ("remove 0", "pair 0 0"),
        ("epoch 007 drop", "ok"), ("read 1", "value 1"), ("new index id 0 64", "ok"),
        ("count", "0")]),
    ("a write changes only a live pair", ONE_KEY + [
        ("put 1 1", "ok"), ("remove 1", "pair 1 1"), ("write 1 9", "absent"),
        ("write 0 8", "old 0"), ("read 0", "value 8")]),
    ("an index supports neither touch nor evict", ONE_KEY + [
        ("touch 0", "wrong kind"), ("evict 0", "wrong kind"), ("count", "1")]),
    ("clear makes every pair a tombstone", ONE_KEY + [
        each(range(1, 40), "put # #", "ok"), ("remove 7", "pair 7 7"), ("clear", "cleared 39"),
        ("count", "0"), ("peek 0", "absent"), ("put 0 1", "ok"),
        ("read 0", "value 1")]),
    ("an epoch has no effect on a map or a cache", [
        ("new map id 0 64", "ok"), ("put 1 2", "ok"), ("epoch 3 drop", "ok"),
        ("remove 1", "pair 1 2"), ("new cache id 0 64", "ok"), ("epoch 3 keep", "ok"),
        ("count", "0")]),
]
