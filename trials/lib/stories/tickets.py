"""Tickets for the units of an old array: issued, worked, ended, abandoned and issued again."""

from rows import each

# A table of 8,192 slots with an old array of 128 buckets, two units, which has the pair.
TWO_UNITS = [
    ("new map spread 4096 9223372036854775808", "ok"), ("put 5 50", "ok"),
    ("peek 5", "value 50"), ("reserve 4096", "4096"), ("peek 5", "value 50"),
    ("slots", "8192"), ("word", "0"),
]


def tickets(*rows):
    """Lines with their replies, each followed by the rehash word and a look at the pair. The word is
    2048 times the next unit, plus the number of open tickets."""
    return [(f"{line}\nword\npeek 5", f"{reply}\n{word}\nvalue 50") for line, reply, word in rows]


def works(buckets, word):
    """Work on buckets one after another, observed in the same way."""
    return [each(buckets, "work #\nword\npeek 5", f"ok\n{word}\nvalue 50")]


STORIES = [
    ("an abandoned unit is issued again", TWO_UNITS + tickets(
        ("start", "ticket 0", "2049"),
        ("start", "ticket 2048", "4098"),
        ("start", "none", "4098"),
        ("end 0 fail", "stays", "1"),
    ) + works(range(64, 128), "1") + tickets(
        ("end 2048 done", "stays", "0"),
        ("start", "ticket 0", "2049"),
    ) + works(range(64), "2049") + tickets(
        ("end 0 done", "stays", "2048"),
        ("start", "ticket 2048", "4097"),
    ) + works(range(64, 128), "4097") + tickets(
        ("work 127", "ok", "4097"),
        ("work 128", "none", "4097"),
        ("end 2048 done", "gone", "none"),
        ("work 0", "none", "none"),
        ("start", "none", "none"),
        ("end 0 done", "refused 1", "none"),
        ("slots", "8192", "none"),
        ("count", "1", "none"),
    )),
    ("a ticket ends once, and with success only if its unit is done", TWO_UNITS + tickets(
        ("end 2048 done", "refused 1", "0"),
        ("start", "ticket 0", "2049"),
        ("end 2048 fail", "refused 1", "2049"),
        ("end 1 done", "refused 1", "2049"),
        ("end 2049 done", "refused 1", "2049"),
        ("end 18446744073709551615 done", "refused 1", "2049"),
        ("end 0 done", "refused 2", "2049"),
        ("end 0 fail", "stays", "0"),
        ("end 0 fail", "refused 1", "0"),
    )),
    # Each round leaves one ticket of the second unit open.
    ("at most 2047 tickets are open", TWO_UNITS + [
        each(range(2046), "start\nstart\nend 0 fail", "ticket 0\nticket 2048\nstays"),
        ("word", "2046"),
    ] + tickets(
        ("start", "ticket 0", "4095"),
        ("start", "none", "4095"),
        ("end 0 fail", "stays", "2046"),
        ("end 2048 fail", "stays", "2045"),
    )),
    # The second unit's first ticket is abandoned while the first unit fails, so that both are
    # issued again.
    ("a ticket ends as often as it was issued", TWO_UNITS + tickets(
        ("start", "ticket 0", "2049"),
        ("start", "ticket 2048", "4098"),
        ("end 0 fail", "stays", "1"),
        ("start", "ticket 0", "2050"),
        ("start", "ticket 2048", "4099"),
    ) + works(range(128), "4099") + tickets(
        ("end 2048 done", "stays", "4098"),
        ("end 2048 done", "stays", "4097"),
        ("end 2048 done", "refused 1", "4097"),
        ("end 0 done", "gone", "none"),
    )),
    # All buckets are done, and yet the unit that failed is issued again.
    ("units end out of order", TWO_UNITS + tickets(
        ("start", "ticket 0", "2049"),
        ("start", "ticket 2048", "4098"),
    ) + works(range(128), "4098") + tickets(
        ("end 2048 fail", "stays", "2049"),
        ("end 0 done", "stays", "2048"),
        ("start", "ticket 2048", "4097"),
        ("end 2048 done", "gone", "none"),
    )),
]
