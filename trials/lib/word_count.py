"""Compares the program's counts of lines with plain ones. Called with the program's path."""
import collections
import random
import subprocess
import sys

SHAPES = [  # bytes, how many different lines at most, the longest line, lines
    (b"ab", 10**9, 3, 1000),
    (bytes(b for b in range(256) if b != 10), 10**9, 2, 3000),
    (bytes(b for b in range(256) if b != 10), 40, 200, 20000),
    (b"0123456789", 10**9, 6, 50000),
    (b"\0\r\t ", 10**9, 40, 2000),
    (b"x", 1, 5000, 1),
]


def counted(text):
    lines = text.split(b"\n")
    if lines[-1] == b"":
        lines.pop()
    counts = collections.Counter(lines)
    rows = sorted(counts.items(), key=lambda row: (-row[1], row[0]))
    return b"".join(b"%d %s\n" % (count, line) for line, count in rows)


def main():
    program = sys.argv[1]
    runs = 0
    texts = [b"", b"\n", b"a", b"a\n", b"\n\na", b"a\n\n"]
    for seed in range(3):
        source = random.Random(seed)
        for bytes_of, different, longest, lines in SHAPES:
            some = [
                bytes(source.choices(bytes_of, k=source.randint(0, longest)))
                for _ in range(min(different, lines))
            ]
            text = b"\n".join(source.choice(some) for _ in range(lines))
            texts.append(text + b"\n" * source.randint(0, 2))
    for text in texts:
        run = subprocess.run([program], input=text, capture_output=True, timeout=60)
        if run.returncode != 0 or run.stderr or run.stdout != counted(text):
            print(f"wrong counts of {text[:80]!r} .., {len(text)} bytes", file=sys.stderr)
            return 1
        runs += 1
    print(f"{runs} texts were counted correctly")
    return 0


sys.exit(main())
