"""5,000 random inputs for the program, checked against a plain reader of lines.

  odd_lines.py PROGRAM    runs the program on each, and judges its replies and its status
"""

import re
import subprocess
import sys
from collections import Counter

from beside import Beside
from chance import Chance

INPUTS = 5000
LONGEST = 4096

# What follows the verb of a line.
NUMBER = "number"
FORMS = {
    b"new": [("map", "index", "cache"), ("zero", "id", "spread"), NUMBER, NUMBER],
    b"epoch": [NUMBER, ("keep", "drop")],
    b"put": [NUMBER, NUMBER],
    b"write": [NUMBER, NUMBER],
    b"reserve": [NUMBER],
    b"release": [NUMBER],
    b"work": [NUMBER],
    b"end": [NUMBER, ("done", "fail")],
    **{verb: [NUMBER] for verb in (b"read", b"peek", b"remove", b"touch", b"evict")},
    **{verb: [] for verb in (b"slots", b"word", b"count", b"has", b"start", b"walk", b"clear")},
}


def lines_in(data):
    *lines, last = data.split(b"\n")
    return lines + [last] * (last != b"")


def words_in(line):
    """The words of a line, or None if its bytes make it invalid."""
    line = line.removesuffix(b"\r")
    if len(line) > LONGEST:
        return None
    try:
        line.decode("utf-8")
    except UnicodeDecodeError:
        return None
    return [word for word in re.split(rb"[ \t]+", line) if word]


def fits(word, form):
    if form is NUMBER:
        return bool(re.fullmatch(rb"[0-9]{1,20}", word)) and int(word) < 2**64
    return word in [it.encode() for it in form]


def can_be_read(words, has_table):
    verb, *operands = words
    forms = FORMS.get(verb)
    if forms is None or len(forms) != len(operands) or not all(map(fits, operands, forms)):
        return False
    if verb == b"new":
        least, most = int(words[3]), int(words[4])
        return most in [2**i for i in range(6, 64)] and least <= most
    return has_table and (verb != b"epoch" or int(words[1]) < 256)


def read(data):
    """The lines that get an answer, and the number of the first invalid line, if there is one."""
    asked = []
    for number, line in enumerate(lines_in(data), 1):
        words = words_in(line)
        if words == []:
            continue
        if words is None or not can_be_read(words, bool(asked)):
            return asked, number
        asked.append(b" ".join(words).decode())
    return asked, None


# Numbers at the edges, and words that are nearly numbers. No number asks for a large table that might
# be allocated.
SMALL = [b"0", b"1", b"2", b"7", b"31", b"64", b"007", b"0" * 19 + b"5"]
EDGES = [b"63", b"65", b"127", b"128", b"255", b"256", b"2047", b"2048", b"4096", b"%d" % 2**62]
EDGES += [b"%d" % it for it in (2**63 - 1, 2**63, 2**64 - 1)]
NO_NUMBERS = [b"%d" % 2**64, b"9" * 20, b"0" * 20 + b"1", b"+2", b"-1", b"1.0", b"0x1", b"1_0"]
NO_NUMBERS += ["\u0661".encode(), b"1\r", b"1\0", b"ten"]

ODD = [b"\0", b"\r", b"\x0b", b"\x0c", b"\x7f", b"\xa0", b"\xff", b"\xc3", b"\xc0\xb1"]
ODD += [b"\xed\xa0\x80", *(it.encode() for it in "\u00e9\u00a0\u2028\ufeff\U0001f600")]

BLANKS = [b" ", b" ", b" ", b" ", b"\t", b"  ", b" \t ", b"   \t\t"]

ENDS = [b"\n"] * 30 + [b"\r\n"] * 10 + [b"\n\n", b"\n \t\r\n", b"\r\n\r\n", b"\r\r\n"]


def operand(chance, form):
    if form is not NUMBER:
        return chance.pick(form).encode()
    chosen = chance.below(100)
    return chance.pick(SMALL if chosen < 75 else EDGES if chosen < 99 else NO_NUMBERS)


def new_line(chance):
    most = chance.pick([b"64", b"128", b"4096", b"%d" % 2**63])
    least = chance.pick([b"0", b"0", b"1", b"64", b"64", most if len(most) < 5 else b"100"])
    kind, hash = (operand(chance, form) for form in FORMS[b"new"][:2])
    return [b"new", kind, hash, least, most]


def line(chance):
    """The words of a line, which is mostly valid."""
    verb = chance.pick(sorted(FORMS) + [b"put", b"peek"] * 5)
    words = [verb, *(operand(chance, form) for form in FORMS[verb])]
    if verb == b"new" and chance.below(5):
        words = new_line(chance)
    chosen = chance.below(150)
    if chosen == 0:
        words.pop()
    elif chosen == 1:
        words.append(operand(chance, NUMBER))
    elif chosen == 2:
        words[0] = chance.pick([verb.upper(), verb[:-1], verb + b"s", verb + b",", b"let", b"#"])
    elif chosen == 3:
        words.insert(chance.below(len(words) + 1), chance.pick(ODD))
    return words


def spelt(chance, words):
    """A line of these words with blanks around them, and sometimes with odd bytes or very long."""
    text = b"".join(word + chance.pick(BLANKS) for word in words)
    if chance.below(3):
        text = text.rstrip(b" \t")
    if chance.below(8) == 0:
        text = chance.pick(BLANKS) + text
    chosen = chance.below(100)
    if chosen == 0:
        at = chance.below(len(text) + 1)
        text = text[:at] + chance.pick(ODD) + text[at:]
    elif chosen == 1:
        text = text.rjust(LONGEST + chance.pick([-1, 0, 0, 0, 1]))
    elif chosen == 2:
        text = text.ljust(chance.pick([LONGEST, LONGEST, LONGEST + 1, 70_000]))
    elif chosen == 3:
        text = chance.pick([b"", b" ", b"\t \t", b" " * LONGEST])
    return text


def made(chance):
    """An input: mostly a line that makes a table, then up to twenty others."""
    count = chance.below(21)
    all_words = [new_line(chance) if chance.below(12) else line(chance)]
    all_words += [line(chance) for _ in range(count)]
    data = b"".join(spelt(chance, words) + chance.pick(ENDS) for words in all_words)
    return data.rstrip(b"\n") if chance.below(4) == 0 else data


def judge(data, output, status):
    """Returns what is wrong with an output, or None."""
    asked, bad = read(data)
    replies = output.decode().split("\n")
    if replies.pop() != "":
        return "the last line of output has no newline"
    last = [f"bad line {bad}"] if bad else []
    if status != (2 if bad else 0) or len(replies) != len(asked) + len(last):
        return f"status {status} and {len(replies)} lines, not {len(asked)} replies and {last}"
    if replies[len(asked) :] != last:
        return f"the last line is {replies[-1]}, not {last[0]}"
    beside = Beside()
    for line, reply in zip(asked, replies):
        if not beside.follow(line, reply):
            return f"`{line}` was answered `{reply}`"
    return None


def main(program):
    chance, counts = Chance(1), Counter()
    for number in range(INPUTS):
        data = made(chance)
        ran = subprocess.run([program], input=data, stdout=subprocess.PIPE, check=False)
        wrong = judge(data, ran.stdout, ran.returncode)
        if wrong:
            sys.exit(f"input {number}, {data!r}: {wrong}")
        asked, bad = read(data)
        counts["lines answered"] += len(asked)
        counts["read to the end" if bad is None else "with a bad line"] += 1
        if bad and len(lines_in(data)[bad - 1].removesuffix(b"\r")) > LONGEST:
            counts["of these with one too long"] += 1
        if any(len(it.removesuffix(b"\r")) == LONGEST for it in lines_in(data)[: bad and bad - 1]):
            counts["with a line of the greatest length"] += 1
    print(f"{INPUTS} inputs:", ", ".join(f"{it} {count}" for it, count in sorted(counts.items())))
    if len(counts) < 5 or min(counts.values()) < 20:
        sys.exit("there are too few inputs of some kind")


if __name__ == "__main__":
    main(sys.argv[1])
