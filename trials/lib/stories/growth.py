"""The number of slots of a table while it grows and shrinks."""

from rows import each

# Thirty-one pairs in each of two buckets, and one more: 64 slots have just become 128. The last
# pair went to a bucket of the old array.
DOUBLED = [
    ("new map spread 0 9223372036854775808", "ok"), each(range(31), "put # #", "ok"),
    each(range(128, 159), "put # #", "ok"), ("slots", "64"), ("put 31 31", "ok"),
    ("slots", "128")
]

ONE_PAIR_IN_4096 = [
    ("new map id 4096 9223372036854775808", "ok"), ("put 5 50", "ok")
]

STORIES = [
    ("the first array has the minimum size, and is kept", [
        ("new map id 1000 9223372036854775808", "ok"), ("slots", "0"),
        ("put 1 10", "ok"), ("slots", "1024"), ("reserve 24", "24"), ("has", "true"),
        ("count", "1"), ("remove 1", "pair 1 10"), ("count", "0"),
        ("slots", "1024")]),
    ("a table grows to the reserved capacity", [
        ("new map id 0 9223372036854775808", "ok"), ("put 5 50", "ok"), ("slots", "64"),
        ("reserve 1000", "1000"), ("slots", "1024"), ("word", "0"),
        ("read 5", "value 50"), ("word", "none")]),
    ("a reservation can't exceed the maximum", [
        ("new map id 64 128", "ok"), ("reserve 65", "0"), ("reserve 64", "64"),
        ("reserve 1", "0"), ("reserve 0", "0"), ("put 1 1", "ok"),
        ("slots", "128")]),
    ("a table shrinks to its lowered minimum", ONE_PAIR_IN_4096 + [
        ("release 5000", "0"), ("slots", "4096"), ("release 4095", "4095"),
        ("slots", "64"), ("word", "0"), ("read 5", "value 50"), ("word", "2048"),
        ("read 5", "value 50"), ("word", "none"), ("release 1", "1"),
        ("slots", "64"), ("remove 5", "pair 5 50"), ("slots", "0"),
        ("release 1", "0")]),
    # The estimate is 0, and so is the minimum: a table with a pair keeps its array.
    ("a table with a pair keeps its array when the minimum is 0", ONE_PAIR_IN_4096 + [
        ("release 4096", "4096"), ("slots", "4096")]),
    # The last bucket, which has no pair, is the sample.
    ("keys with equal hashes make a chain and no growth", [
        ("new map zero 0 9223372036854775808", "ok"), each(range(37), "put # #", "ok"),
        ("slots", "64"), ("word", "none"), ("count", "37"),
        ("walk", "walked 2 37")]),
    ("one read completes a growth", DOUBLED + [
        ("word", "0"), ("read 0", "value 0"), ("word", "none"), ("slots", "128"),
        ("count", "63")]),
    ("a walk counts all buckets and pairs, and clear leaves none", DOUBLED + [
        ("walk", "walked 4 63"), ("clear", "cleared 63"), ("slots", "0"),
        ("walk", "walked 0 0")]),
    # Once the bucket of keys 128 to 158 is empty, the first two are looked at.
    ("an array is dropped with its last pair", DOUBLED + [
        each(range(128, 159), "remove #\nslots", "pair # #\n128"),
        each(range(31), "remove #\nslots", "pair # #\n128"), ("remove 31", "pair 31 31"),
        ("slots", "0"), ("peek 31", "absent")]),
    # An old array keeps the current one from being dropped; a later count drops it.
    ("an array is kept while a ticket is open", DOUBLED + [
        ("start", "ticket 0"), each(range(128, 159), "remove #\nslots", "pair # #\n128"),
        each(range(32), "remove #\nslots", "pair # #\n128"), ("word", "2049"),
        ("end 0 done", "gone"), ("word", "none"), ("slots", "128"), ("count", "0"),
        ("slots", "0")]),
]
