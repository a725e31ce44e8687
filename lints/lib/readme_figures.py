"""Checks that README's longest insertions agree with each other, and its counts with the files.
Called with README's path."""

import re
import sys
from pathlib import Path

# The longest insertion of these containers and of std's map, in ms: near the top of README, and above the
# table of times.
LONGEST = [
    r"longest of 4,000,000 insertions took ([\d.]+) ms \(std ([\d.]+)\)",
    r"longest of 4,000,000 insertions took ([\d.]+) ms \(kit [\d.]+, std ([\d.]+)\)",
]

# The crates whose lines README counts, and the sentence that gives the counts.
CRATES = ["bucket_slots", "bucket_table", "bhtable", "collections", "bucket_calls", "bucket_c"]
LINES = r"have ([\d,]+) lines of code, ([\d,]+) of specs and ([\d,]+) of proofs"
# The counts are rounded to thousands, and may be off by one thousand.
THOUSAND = 1000

# The wrong bodies, in two places; the random calls: all, those while allocations fail, and those on each
# collection of the bindings.
EDITS = r"([\d,]+) wrong bodies"
CALLS = r"([\d,]+) random calls on the four collections .*? ([\d,]+) of them while allocations fail"
BOUND_CALLS = r"([\d,]+) on each kind of collection from C\+\+, from Rust and from Python"


def fail(why):
    sys.exit(f"README: {why}")


def found(pattern, text):
    """The groups of a pattern that must occur exactly once in a text."""
    matches = re.findall(pattern, text)
    if len(matches) != 1:
        fail(f"{pattern!r} matches {len(matches)} times, not once")
    return matches[0]


def number(digits):
    return int(digits.replace(",", "").replace("_", ""))


def compare_longest(text):
    head, below = (found(pattern, text) for pattern in LONGEST)
    if head != below:
        fail(f"the longest insertions are {head} ms near the top, but {below} above the table of times")
    print(f"{len(head)} longest insertions are the same in both places")


def lines_of(root, folder, ending):
    """The number of lines in the files with this ending, below this folder of each of the crates."""
    files = [file for crate in CRATES for file in (root / "crates" / crate / folder).rglob(f"*{ending}")]
    return sum(len(file.read_text().splitlines()) for file in files)


def compare_lines(text, root):
    counts = [lines_of(root, "src", ".rt"), lines_of(root, "specs", ".antt"), lines_of(root, "proofs", ".antt")]
    stated = [number(digits) for digits in found(LINES, text)]
    if any(abs(count - figure) > THOUSAND for count, figure in zip(counts, stated, strict=True)):
        fail(f"it says {stated} lines of code, specs and proofs; {' and '.join(CRATES)} have {counts}")


def compare_exact(what, stated, counts):
    stated = [number(digits) for digits in stated]
    if stated != counts:
        fail(f"it says {stated} {what}; there are {counts}")


def random_calls(root):
    """The calls of crates/trial_refused_collections: in all runs, and in those in which allocations fail."""
    output = (root / "crates/trial_refused_collections/stdout").read_text()
    calls = sum(map(int, re.findall(r"(\d+) calls", output)))
    runs = int(found(r"(?m)^runs=(\d+)$", (root / "trials/refused_collections.sh").read_text()))
    return [calls * (runs + 1), calls * runs]


def compare_counts(text, root):
    compare_lines(text, root)
    edits = len(list(root.glob("crates/*/wrong_bodies/*.edit")))
    compare_exact("wrong bodies", re.findall(EDITS, text), [edits, edits])
    compare_exact("random calls", found(CALLS, text), random_calls(root))
    for file, pattern in (
        ("bindings/cpp/tests/random.cpp", r"std::atoi\(said\) : (\d+);"),
        ("bindings/rust/tests/common/mod.rs", r"unwrap_or\(([\d_]+)\)"),
        ("bindings/python/tests/test_chance.py", r'CALLS = int\(os.environ.get\("BUCKET_CALLS", "(\d+)"\)\)'),
    ):
        calls = number(found(pattern, (root / file).read_text()))
        compare_exact(f"calls of {file}", [found(BOUND_CALLS, text)], [calls])
    print("the counts of lines, wrong bodies and random calls are those of the files")


def main(path):
    text = Path(path).read_text()
    compare_longest(text)
    compare_counts(text, Path(path).resolve().parent)


if __name__ == "__main__":
    main(sys.argv[1])
