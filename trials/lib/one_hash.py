"""Scripts on 8,032 keys with one hash, which fill 2,000 blocks of a chain, and their replies.

  one_hash.py FOLDER    writes FOLDER/NAME.lines and FOLDER/NAME.replies
"""

import sys

M = 2**63
KEYS = range(8032)
PUTS = [(f"new map zero 0 {M}", "ok"), *((f"put {key} 0", "ok") for key in KEYS), ("slots", "64")]

SCRIPTS = {
    "removed_in_reverse": [
        *PUTS,
        ("walk", "walked 2 8032"),
        *((f"remove {key}", f"pair {key} 0") for key in reversed(KEYS)),
        ("slots", "0"),
    ],
    "relocated_whole": [
        *PUTS,
        ("reserve 128", "128"),
        ("slots", "16384"),
        ("word", "0"),
        ("read 0", "value 0"),
        ("word", "none"),
        ("count", "8032"),
        ("walk", "walked 512 8032"),
    ],
}


def main(folder):
    for name, rows in SCRIPTS.items():
        for ending, column in [("lines", 0), ("replies", 1)]:
            with open(f"{folder}/{name}.{ending}", "w") as file:
                file.write("".join(f"{row[column]}\n" for row in rows))


if __name__ == "__main__":
    main(sys.argv[1])
