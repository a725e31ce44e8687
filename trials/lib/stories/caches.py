"""The answers of a cache."""

from rows import each

# One hash for all keys, so that the keys below 32 fill the own slots of their numbers.
FULL = [ ("new cache zero 64 64", "ok"), each(range(32), "put # #", "ok")]

# Thirty-one pairs in each of two buckets.
TWO_BUCKETS = [
    ("new cache spread 0 128", "ok"), each(range(31), "put # #", "ok"),
    each(range(128, 159), "put # #", "ok")
]

STORIES = [
    ("a pair is put into a cache and removed", [
        ("new cache spread 0 9223372036854775808", "ok"), ("touch 1", "absent"),
        ("evict 1", "nothing"), ("write 1 2", "absent"), ("put 1 2", "ok"),
        ("put 1 3", "present"), ("touch 1", "ok"), ("write 1 4", "old 2"),
        ("peek 1", "value 4"), ("count", "1"), ("has", "true"),
        ("remove 1", "pair 1 4"), ("touch 1", "absent"), ("has", "false"),
        ("new map id 0 64", "ok"), ("touch 1", "wrong kind")]),
    ("a bucket evicts its touched pair if full, and none if a slot is free", FULL + [
        ("touch 7", "ok"), ("evict 0", "pair 7 7"), ("evict 0", "nothing"),
        ("touch 7", "absent"), ("touch 8", "ok"), ("peek 7", "absent"),
        ("count", "31")]),
    ("slot 0 is evicted if nothing was touched", FULL + [
        ("evict 0", "pair 0 0"), ("put 32 32", "ok"), ("evict 0", "pair 32 32"),
        ("count", "31"), ("evict 30", "nothing"), ("count", "31")]),
    ("the pair touched first is evicted first; reads and writes don't touch", FULL + [
        ("touch 9", "ok"), ("touch 4", "ok"), ("read 9", "value 9"),
        ("peek 9", "value 9"), ("write 9 1", "old 9"), ("evict 99", "pair 9 1"),
        ("put 9 2", "ok"), ("evict 99", "pair 4 4")]),
    ("pairs in the overflow chain are not evicted", FULL + [
        each(range(32, 40), "put # #", "ok"), each(range(40), "touch #", "ok"), ("evict 0", "pair 0 0"),
        ("count", "39"), ("evict 0", "nothing")]),
    # The look-up moves the old pairs: the two that were touched are evicted in the order in which
    # they were touched, and then the pair of the first slot.
    ("a growth keeps the LRU order", TWO_BUCKETS + [
        ("touch 3", "ok"), ("touch 5", "ok"), ("put 31 31", "ok"), ("slots", "128"),
        ("read 0", "value 0"), ("evict 0", "pair 3 3"), ("evict 0", "nothing"),
        ("put 3 3", "ok"), ("evict 0", "pair 5 5"), ("put 5 5", "ok"),
        ("evict 0", "pair 0 0")]),
    # One old bucket has no pair left; the other has 152 to 158, and 158 was touched first.
    ("a shrink keeps the LRU order", TWO_BUCKETS + [
        ("put 31 31", "ok"), ("slots", "128"), each(range(128, 152), "remove #", "pair # #"),
        ("touch 158", "ok"), ("touch 152", "ok"), each(range(32), "remove #", "pair # #"),
        ("slots", "64"), each(range(160, 185), "put # #", "ok"), ("evict 152", "pair 158 158")]),
    ("clear leaves no pair in a cache", FULL + [
        ("touch 7", "ok"), ("walk", "walked 2 32"), ("clear", "cleared 32"),
        ("evict 0", "nothing"), ("count", "0")]),
]
