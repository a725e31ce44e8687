"""20,000 random lines that raise and lower the minimum while a table grows and shrinks.

  releases.py write FILE     writes the lines
  releases.py judge FOLDER   judges the runs FOLDER/N, whose first line is their status: in all but
                             the last an allocation failed
"""

import os
import sys
from collections import Counter

from arrays import Arrays
from beside import Beside
from chance import Chance
from refused_scripts import judge_run, read_run

CALLS = 20_000
M = 2**14
KEYS = 300
TABLES = ["map id", "map spread", "map zero", "index spread", "cache spread"]


class Course:
    """Random lines on one table, with a plain counter of its minimum."""

    def __init__(self, chance, kind):
        self.chance, self.minimum = chance, 0
        self.first = f"new {kind} 0 {M}"

    def line(self, rises):
        """A line: mostly a put or a removal, or one that sets the minimum, looks something up or rehashes."""
        chance = self.chance
        key = chance.below(KEYS) * (2**55 + 1)
        chosen = chance.below(16)
        if chosen == 0:
            return self.reserve(chance.pick([0, 1, 64, 500, 2000, M]))
        if chosen == 1:
            return self.release(chance.pick([0, 1, self.minimum, self.minimum + 1, 700]))
        if chosen < 5:
            return chance.pick([f"peek {key}", "count", "slots", "word", f"read {key}", "has"])
        if chosen < 7:
            ends = [f"end {2048 * chance.below(3)} {how}" for how in ("done", "fail")]
            return chance.pick(["start", f"work {chance.below(512)}", *ends])
        return f"put {key} {chosen}" if rises == (chosen < 14) else f"remove {key}"

    def reserve(self, number):
        if number <= M - self.minimum:
            self.minimum += number
        return f"reserve {number}"

    def release(self, number):
        if number <= self.minimum:
            self.minimum -= number
        return f"release {number}"


def lines():
    chance, left = Chance(7), CALLS
    while left:
        course = Course(chance, chance.pick(TABLES))
        yield course.first
        for phase in range(8):
            for _ in range(min(left, 250)):
                yield course.line(phase % 2 == 0)
            left -= min(left, 250)


class Table(Beside):
    """A map with the model of its arrays. At most so many allocations fail in all tables together."""

    def __init__(self, refusals):
        super().__init__()
        self.refusals = refusals

    def follow(self, line, reply):
        """Returns whether the reply is one that both the map and the arrays may give."""
        if not super().follow(line, reply):
            return False
        verb, *words = line.split()
        if verb == "new":
            self.arrays = Arrays(*words[:2], self.minimum, self.maximum, self.refusals)
            return True
        fits = self.arrays.follow(line, reply)
        self.refusals = max((state.refusals for state in self.arrays.states), default=0)
        return fits


def judge(folder):
    expected, counts = list(lines()), Counter()
    runs = sorted(map(int, os.listdir(folder)))
    ample = read_run(f"{folder}/{runs[-1]}")[1]
    for number in runs:
        status, replies = read_run(f"{folder}/{number}")
        refusals = int(number < runs[-1])
        # A run with the replies of the last one, or with the first of them, is as right as that one.
        is_begun = status == 3 and replies == [*ample[: len(replies) - 1], "no memory"]
        is_known = is_begun or number < runs[-1] and (status, replies) == (0, ample)
        wrong = None if is_known else judge_run(expected, status, replies, Table(refusals))
        if wrong:
            sys.exit(f"allocation {number} failed: {wrong}")
        counts["runs"] += 1
        counts["ended"] += status == 3
        counts["failed a call"] += "refused 3" in replies
        counts["changed replies"] += status == 0 and "refused 3" not in replies and replies != ample
        for line, reply in zip(expected, replies):
            if line.startswith("release"):
                counts["lowered"] += reply != "0"
                counts["not lowered"] += reply == "0" and line != "release 0"
    print(", ".join(f"{it} {count}" for it, count in counts.items()))
    if not all(counts.values()):
        sys.exit("something never happens")


if __name__ == "__main__":
    if sys.argv[1] == "write":
        with open(sys.argv[2], "w") as file:
            file.writelines(f"{line}\n" for line in lines())
    else:
        judge(sys.argv[2])
