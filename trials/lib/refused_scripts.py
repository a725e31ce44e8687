"""Scripts for runs in which one allocation fails, and their judge.

  refused_scripts.py write FOLDER    writes each script's lines to FOLDER/NAME/input
  refused_scripts.py judge FOLDER    judges the runs FOLDER/NAME/N, whose first line is their status
"""

import os
import sys

from beside import Beside

M = 2**63


def puts(*keys):
    return [(f"put {key} {key}", "ok") for key in keys]


def takes(*keys):
    return [(f"remove {key}", f"pair {key} {key}") for key in keys]


def works(*buckets):
    return [(f"work {bucket}", "ok") for bucket in buckets]


def peeks(*keys):
    return [(f"peek {key}", f"value {key}") for key in keys]


def looks(rows):
    """Looks for key 5 after each row."""
    return [row for it in rows for row in (it, ("peek 5", "value 50"))]


# Lines, each with its reply if no allocation fails, and a reply that some other run must give.
TWO_UNITS = [("put 5 50", "ok", "refused 3"), ("reserve 4096", "4096"), ("slots", "8192", "4096")]
THE_FIRST_FAILS = [
    ("start", "ticket 0", "none"),
    ("word", "2049", "none"),
    ("start", "ticket 2048"),
    ("word", "4098"),
    ("start", "none"),
    ("end 0 fail", "stays"),
    ("word", "1"),
    *works(*range(64, 128)),
    ("end 2048 done", "stays", "refused 1"),
    ("word", "0"),
]
BOTH_ARE_DONE = [
    ("start", "ticket 0"),
    *works(*range(64)),
    ("end 0 done", "stays"),
    ("word", "2048"),
    ("start", "ticket 2048"),
    *works(*range(64, 128)),
    ("end 2048 done", "gone"),
    ("word", "none"),
]

# The last put doubles the array.
DOUBLED = [
    (f"new map spread 0 {M}", "ok"),
    *puts(*range(31), *range(128, 159), 31),
    ("slots", "128", "64"),
]



def shrunk(kind):
    """The array shrinks from 16 buckets to 4, and pairs move only after blocks are allocated."""
    return [
        (f"new {kind} spread 1 {M}", "ok"),
        *puts(*range(128, 228), *range(32)),
        ("slots", "512", "64"),
        *takes(*range(192, 228), *range(168, 192), *range(16), *range(16, 32)),
        ("slots", "128", "512"),
        ("start", "ticket 0", "none"),
    ]


SHRUNK = shrunk("map")

EVICTING = [
    ("new cache zero 64 64", "ok"),
    *puts(*range(32)),
    ("touch 7", "ok"),
    ("evict 0", "pair 7 7", "nothing"),
    ("evict 0", "nothing"),
]

MARKING = [
    (f"new index zero 0 {M}", "ok"),
    *puts(*range(32)),
    *takes(*range(4)),
    ("peek 0", "absent"),
    ("put 32 32", "ok", "refused 3"),
    ("epoch 0 drop", "ok"),
    ("put 33 33", "ok"),
    ("count", "30", "29"),
]

SCRIPTS = {
    "two_units": [
        (f"new map spread 4096 {M}", "ok"),
        *looks(TWO_UNITS + THE_FIRST_FAILS + BOTH_ARE_DONE),
    ],
    "a_read_ends_a_growth": [*DOUBLED, ("word", "0"), ("read 0", "value 0"), ("word", "none")],
    "the_array_goes_with_the_last": [
        *DOUBLED,
        *takes(*range(128, 159), *range(31)),
        ("slots", "128", "64"),
        *takes(31),
        ("slots", "0"),
    ],
    "a_put_into_a_shrunk_array": [
        *SHRUNK,
        ("put 170 1", "ok", "refused 3"),
        ("peek 160", "value 160"),
        ("put 170 1", "present", "ok"),
        ("count", "41"),
    ],
    "a_read_in_a_shrunk_array": [*SHRUNK, ("read 160", "value 160"), *peeks(*range(128, 168))],
    "changes_amid_a_rehash": [
        *SHRUNK,
        ("write 150 1", "old 150"),
        ("remove 150", "pair 150 1"),
        *takes(*range(128, 150)),
        ("count", "17"),
    ],
    "changes_of_an_index_amid_a_rehash": [
        *shrunk("index"),
        ("write 150 1", "old 150"),
        ("remove 150", "pair 150 1"),
        *takes(*range(128, 150)),
        ("count", "17"),
    ],
    "changes_of_a_cache_amid_a_rehash": [
        *shrunk("cache"),
        ("touch 151", "ok"),
        ("write 150 1", "old 150"),
        ("remove 150", "pair 150 1"),
        *takes(*range(128, 150)),
        ("count", "17"),
    ],
    # A walk that fails has emptied the old buckets 0 to 9, and not yet 10.
    "a_walk_over_a_shrunk_array": [
        *SHRUNK,
        ("walk", "walked 4 40", "refused 3"),
        *works(*range(11, 16)),
        ("end 0 done", "gone", "refused 2"),
        ("work 10", "none", "ok"),
        ("end 0 done", "refused 1", "gone"),
    ],
    "a_clearing_of_a_shrunk_array": [
        *SHRUNK,
        *puts(1),
        ("clear", "cleared 41", "refused 3"),
        ("count", "0", "40"),
    ],
    "a_walk_and_a_clearing": [
        *DOUBLED,
        ("walk", "walked 4 63", "walked 2 63"),
        ("clear", "cleared 63"),
        ("slots", "0"),
    ],
    "a_lowered_minimum": [
        (f"new map id 4096 {M}", "ok"),
        ("put 5 50", "ok", "refused 3"),
        ("release 5000", "0"),
        ("slots", "4096", "0"),
        ("release 4095", "4095"),
        ("slots", "64", "4096"),
        ("word", "0", "none"),
        *[it for word in ("2048", "none") for it in (("read 5", "value 50"), ("word", word))],
        ("release 1", "1"),
        ("slots", "64"),
        ("remove 5", "pair 5 50", "absent"),
        ("slots", "0"),
    ],
    "an_eviction": EVICTING,
    "marks": MARKING,
    # The old bucket has tombstones and more pairs than own slots, so that room is reserved in the longer
    # array.
    "marks_and_a_longer_array": [
        (f"new index zero 0 {M}", "ok"),
        *puts(*range(32)),
        *takes(*range(4)),
        *puts(*range(32, 45)),
        ("count", "41", "40"),
        ("reserve 4096", "4096"),
        ("slots", "4096", "64"),
        ("start", "ticket 0", "none"),
        ("work 0", "ok", "refused 3"),
        ("work 1", "ok", "none"),
        ("end 0 done", "gone", "refused 2"),
        ("peek 0", "absent"),
        ("peek 40", "value 40"),
        ("count", "41"),
    ],
    "two_units_of_an_index": [
        (f"new index spread 4096 {M}", "ok"),
        *looks(TWO_UNITS + THE_FIRST_FAILS),
    ],
}


def lines_of(rows):
    """The script's lines, then a look-up of each of its keys, and a count of the pairs."""
    lines = [row[0] for row in rows]
    keyed = {"put", "write", "read", "peek", "remove", "touch", "evict"}
    keys = sorted({int(it.split()[1]) for it in lines if it.split()[0] in keyed})
    return lines + [f"peek {key}" for key in keys] + ["count"]


def write(folder):
    for name, rows in SCRIPTS.items():
        os.mkdir(f"{folder}/{name}")
        with open(f"{folder}/{name}/input", "w") as file:
            file.write("".join(f"{line}\n" for line in lines_of(rows)))


def read_run(file):
    with open(file) as it:
        status, *replies = it.read().splitlines()
    return int(status), replies


def judge_run(lines, status, replies, beside):
    """Returns what is wrong with a run, by the model, or None."""
    if status == 3:
        if not replies or replies.pop() != "no memory" or len(replies) > len(lines):
            return "status 3 without `no memory`"
    elif status != 0 or len(replies) != len(lines):
        return f"status {status} and {len(replies)} replies to {len(lines)} lines"
    for number, (line, reply) in enumerate(zip(lines, replies), 1):
        if not beside.follow(line, reply):
            return f"line {number}: `{line}` was answered `{reply}`"
    return None


def judge_script(folder, rows):
    """Judges the runs of a script, in the last of which no allocation failed, and counts them."""
    lines, runs = lines_of(rows), len(os.listdir(folder)) - 1
    unseen = {(at, row[2]) for at, row in enumerate(rows) if len(row) > 2}
    counts = {"ended the run": 0, "failed a call": 0, "changed replies": 0, "changed no reply": 0}
    ample = read_run(f"{folder}/{runs}")[1]
    for at, row in enumerate(rows):
        if at >= len(ample) or ample[at] != row[1]:
            sys.exit(f"{folder}: without a failure `{row[0]}` is not answered `{row[1]}`")
    for number in range(1, runs + 1):
        status, replies = read_run(f"{folder}/{number}")
        wrong = judge_run(lines, status, replies, Beside())
        if wrong:
            sys.exit(f"{folder}: allocation {number} failed: {wrong}")
        unseen -= set(enumerate(replies))
        if number < runs:
            refused = "refused 3" in replies
            others = "changed no reply" if replies == ample else "changed replies"
            counts["ended the run" if status else "failed a call" if refused else others] += 1
    if unseen:
        missing = ", ".join(f"`{rows[at][0]}` with `{reply}`" for at, reply in sorted(unseen))
        sys.exit(f"{folder}: no failure gave the answer {missing}")
    return runs - 1, counts


def judge(folder):
    total = 0
    for name, rows in SCRIPTS.items():
        requests, counts = judge_script(f"{folder}/{name}", rows)
        total += requests
        summary = ", ".join(f"{count} {it}" for it, count in counts.items())
        print(f"{name}: {requests} allocations failed: {summary}")
    print(f"{total} allocations failed in {len(SCRIPTS)} scripts")


if __name__ == "__main__":
    {"write": write, "judge": judge}[sys.argv[1]](sys.argv[2])
