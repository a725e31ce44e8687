"""An input that comes in pieces or fails, and an output that takes pieces or fails."""

from errno import EINTR, EIO, ENOSPC

SCRIPT = b"new map id 0 64\nput 1 10\npeek 1\n"
REPLIES = b"ok\nok\nvalue 10\n"

# How many bytes are read at a time, after how many reads one fails, how, what is output then, and the
# status.
READS = [
    *((piece, 1000, EIO, REPLIES, 0) for piece in (1, 2, 3, 7, 20, 64)),
    # An interrupted read is repeated.
    *((5, after, EINTR, REPLIES, 0) for after in range(12)),
    # The lines before the failed input are answered.
    (10, 0, EIO, b"input failed\n", 4),
    (10, 1, EIO, b"input failed\n", 4),
    (10, 2, EIO, b"ok\ninput failed\n", 4),
    (10, 3, EIO, b"ok\nok\ninput failed\n", 4),
    (10, 4, EIO, b"ok\nok\nvalue 10\ninput failed\n", 4),
]

# A script whose last line can't be read, and its whole output.
BAD_SCRIPT = b"new map id 0 64\nput 1 10\npeek 1\npoke 1\n"
BAD_REPLIES = b"ok\nok\nvalue 10\nbad line 4\n"

# After how many writes of five bytes one fails, how, what is output then, and the status.
WRITES = [
    (0, ENOSPC, b"", 4),
    (1, ENOSPC, b"ok\nok", 4),
    (2, ENOSPC, b"ok\nok\nvalu", 4),
    (3, ENOSPC, b"ok\nok\nvalue 10\n", 4),
    (5, ENOSPC, b"ok\nok\nvalue 10\nbad line 4", 4),
    (6, ENOSPC, BAD_REPLIES, 2),
    # An interrupted write is repeated.
    *((after, EINTR, BAD_REPLIES, 2) for after in range(7)),
]

# Lines, each of which is sent after the one before it is answered.
TALK = [
    (b"new map id 0 64\n", b"ok\n"),
    (b"put 1 10\n", b"ok\n"),
    (b"peek 1\n", b"value 10\n"),
    (b"new map id 0 64\n", b"ok\n"),
    (b"peek 1\n", b"absent\n"),
]
