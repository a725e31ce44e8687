"""The answers of a map."""

from rows import each

STORIES = [
    ("a pair keeps its value until it is removed", [
        ("new map spread 0 64", "ok"), ("peek 1", "absent"), ("remove 1", "absent"),
        ("put 1 10", "ok"), ("put 1 11", "present"), ("peek 1", "value 10"),
        ("peek 2", "absent"), ("remove 2", "absent"), ("remove 1", "pair 1 10"),
        ("peek 1", "absent"), ("put 1 12", "ok"), ("read 1", "value 12")]),
    ("a new table is empty", [
        ("new map id 0 64", "ok"), ("put 0 7", "ok"), ("new map zero 64 64", "ok"),
        ("peek 0", "absent"), ("put 0 8", "ok"), ("remove 0", "pair 0 8")]),
    ("a write replies with the earlier value", [
        ("new map id 0 9223372036854775808", "ok"), ("put 1 0", "ok"),
        ("put 1 1", "present"), ("write 1 1", "old 0"), ("write 1 3", "old 1"),
        ("read 1", "value 3"), ("remove 1", "pair 1 3"), ("slots", "0")]),
    ("a table without an array replies to each call", [
        ("new map id 0 64", "ok"), ("read 1", "absent"), ("peek 1", "absent"),
        ("remove 1", "absent"), ("write 1 2", "absent"), ("evict 1", "wrong kind"),
        ("touch 1", "wrong kind"), ("count", "0"), ("has", "false"),
        ("start", "none"), ("work 0", "none"), ("end 0 done", "refused 1"),
        ("end 0 fail", "refused 1"), ("walk", "walked 0 0"), ("clear", "cleared 0"),
        ("word", "none"), ("slots", "0")]),
    ("a map counts its pairs, and supports neither touch nor evict", [
        ("new map spread 64 64", "ok"), ("put 1 10", "ok"), ("has", "true"),
        ("count", "1"), ("touch 1", "wrong kind"), ("evict 1", "wrong kind"),
        ("walk", "walked 2 1"), ("remove 1", "pair 1 10"), ("count", "0"),
        ("has", "false"), ("walk", "walked 2 0")]),
    ("a bucket holds more pairs than it has own slots", [
        ("new map id 0 64", "ok"), each(range(32), "put # 0", "ok"), ("put 31 9", "present"),
        ("put 32 0", "ok"), ("put 33 5", "ok"), ("peek 32", "value 0"),
        ("remove 4", "pair 4 0"), ("count", "33"), ("write 33 6", "old 5"),
        ("remove 32", "pair 32 0"), ("read 33", "value 6")]),
    ("forty pairs with equal hashes are inserted and removed", [
        ("new map zero 0 64", "ok"), each(range(40), "put # 1#", "ok"), ("count", "40"),
        ("put 39 0", "present"), ("put 31 0", "present"),
        each(range(40), "read #\nremove #\nread #", "value 1#\npair # 1#\nabsent"),
        ("count", "0"), ("has", "false"), ("slots", "0")]),
    # More replies than are buffered at once, and more calls than a table is given at once.
    ("a long script has a reply to every line", [
        ("new map id 0 64", "ok"), ("put 7 12345678901234567890", "ok"),
        each(range(3000), "peek 7\npeek 8", "value 12345678901234567890\nabsent")]),
]
