"""The forms that a line may have, and lines that can't be read."""

# Inputs, with their whole output and the status.
TEXTS = [
    (b"", b"", 0),
    (b"\n\r\n \t \n", b"", 0),
    (b"new map id 0 64", b"ok\n", 0),
    (b"new map id 0 64\r", b"ok\n", 0),
    (b"new map id 0 64\r\nput 1 2\r\npeek 1\r\n", b"ok\nok\nvalue 2\n", 0),
    (b"\t new \t map  id\t0 64 \t\n peek 1 ", b"ok\nabsent\n", 0),
    (
        b"new map id 00000000000000000000 0064\nput 007 00000000000000000009\npeek 7",
        b"ok\nok\nvalue 9\n",
        0,
    ),
    (
        b"new map id 0 64\nput 18446744073709551615 18446744073709551615\nremove 18446744073709551615",
        b"ok\nok\npair 18446744073709551615 18446744073709551615\n",
        0,
    ),
    (
        b"new map id 0 64\nput 1 18446744073709551615\npeek 1",
        b"ok\nok\nvalue 18446744073709551615\n",
        0,
    ),
    (b"new map id 9223372036854775808 9223372036854775808\nnew map zero 64 64", b"ok\nok\n", 0),
    (b"new index id 0 64\nepoch 255 keep\nepoch 000 drop", b"ok\nok\nok\n", 0),
    (b"put 1 2\nnew map id 0 64", b"bad line 1\n", 2),
    (b"\n \n\r\nremove 1", b"bad line 4\n", 2),
    (b"\nnew map id 0 64\nput 1", b"ok\nbad line 3\n", 2),
    (b"new map id 0 64\nput 1 5\npeek 1\nwrong\npeek 1", b"ok\nok\nvalue 5\nbad line 4\n", 2),
    (b"new map id 0 64\nnew map id 0 65\nput 1 1", b"ok\nbad line 2\n", 2),
    (b"new map id 0 64\n\n\nend 0", b"ok\nbad line 4\n", 2),
]

# Lines, none of which can be read as the first line. Calls and questions need a table.
FIRST = [
    b"peek 1", b"count", b"start", b"slots", b"word", b"epoch 0 keep", b"remove 1", b"walk",
    b"new map id 0 100", b"new map id 65 64", b"new map id 0 32", b"new map id 0 0",
    b"new map id 0 18446744073709551615", b"new map id 9223372036854775809 9223372036854775808",
    b"NEW map id 0 64", b"new", b"new map id 64", b"new map id 0 64 0", b"new map Id 0 64",
    b"new indexes id 0 64", b"new index id 0 100", b"new index 0 64", b"new caches id 0 64",
    b"new cache id 0 100", b"new cache 0 64", b"newmap id 0 64", b"new map id -1 64",
]

# Lines, none of which can be read after that of a table: with too few words or too many, or with
# other words; with a word that isn't a number; with other bytes as parts of words; that aren't
# text.
SECOND = [
    b"put", b"put 1", b"put 1 2 3", b"peek", b"peek 1 2", b"remove 1 2", b"write 1",
    b"write 1 2 3", b"read", b"read 1 2", b"touch", b"touch 1 2", b"evict", b"evict 1 2",
    b"count 1", b"has 1", b"Count", b"walk 1", b"clear 1", b"pee 1", b"peeks 1", b"reserve",
    b"reserve 1 2", b"reserve none", b"release", b"start 1", b"work", b"work 1 2", b"work -1",
    b"end", b"end 0", b"end done", b"end done 0", b"end 0 keep", b"end 0 Done",
    b"end 0 done fail", b"end 18446744073709551616 done", b"slots 1", b"word 1",
    b"epoch 256 keep", b"epoch 255 hold", b"epoch 255 Drop", b"epoch keep 1", b"epoch keep",
    b"epoch 1", b"epoch", b"epoch 1 keep drop", b"epoch 18446744073709551616 drop", b"put 1 +2",
    b"put 1 -2", b"put 1 18446744073709551616", b"put 1 99999999999999999999",
    b"put 1 000000000000000000001", b"peek 0x1", b"peek 1_0", b"peek 1\r\r\n", b"peek\r1",
    b"peek 1\0", b"peek\x0b1", b"peek\x0c1", b"peek\xc2\xa01", b"\0", b"peek 1 \xff", b"\xc2",
    b"peek \xc0\xb1",
]
TABLES = [b"new map id 0 64", b"new index zero 0 64", b"new cache spread 0 64"]

# The length of a second line without what ends it, with spaces before its words; and its answer,
# with the status.
LENGTHS = [
    (4096, b"count", b"\n", b"ok\n0\n", 0),
    (4096, b"count", b"\r\n", b"ok\n0\n", 0),
    (4096, b"count", b"", b"ok\n0\n", 0),
    (4096, b"count", b"\r", b"ok\n0\n", 0),
    (4097, b"count", b"\n", b"ok\nbad line 2\n", 2),
    (4097, b"count", b"\r\n", b"ok\nbad line 2\n", 2),
    (4097, b"count", b"", b"ok\nbad line 2\n", 2),
    (4097, b"count", b"\r", b"ok\nbad line 2\n", 2),
    # Lines without words are counted too.
    (4096, b"", b"\n", b"ok\n", 0),
    (4096, b"", b"\r\n", b"ok\n", 0),
    (4096, b"", b"", b"ok\n", 0),
    (4096, b"", b"\r", b"ok\n", 0),
    (4097, b"", b"\n", b"ok\nbad line 2\n", 2),
    (4097, b"", b"\r\n", b"ok\nbad line 2\n", 2),
    (4097, b"", b"", b"ok\nbad line 2\n", 2),
    (4097, b"", b"\r", b"ok\nbad line 2\n", 2),
    # One carriage return is dropped, but not two.
    (4095, b"peek 1", b"\r\r\n", b"ok\nbad line 2\n", 2),
    (200_000, b"", b"", b"ok\nbad line 2\n", 2),
]


def inputs():
    """Each input with its whole output and the status."""
    yield from TEXTS
    yield from ((line, b"bad line 1\n", 2) for line in FIRST)
    for table in TABLES:
        yield from ((table + b"\n" + line, b"ok\nbad line 2\n", 2) for line in SECOND)
    for length, words, ending, output, status in LENGTHS:
        line = b" " * (length - len(words)) + words + ending
        yield b"new map id 0 64\n" + line, output, status
