"""Finds private words in documents, in comments and docstrings of sources, and in headers.

  words.py ROOT LIST    ROOT is the repository; LIST has a row for each word and for each exception
"""

import re
import subprocess
import sys
from collections import Counter
from pathlib import Path

# A row of the list has four fields, with a tab between two: `word`, a regular expression, a better word
# and a reason; or `except`, a path, the expression of a word and a reason. Case doesn't matter.
KINDS = ("word", "except")

# What a blank in an expression matches, so that a word may begin on one line and end on the next.
BLANK = r"(?:[ \t]+|[ \t]*\n[ \t]*)"

SOURCE = re.compile(r"crates/[^/]+/src/.*\.rt")
HEADER = re.compile(r"bindings/bucket\.(?:h|hpp)")

# A comment to the end of a line of a source, and what is between the marks of a header's comments.
LINE_COMMENT = re.compile(r"(?:^|\s)//[/!]?(.*)")
BLOCK_COMMENT = re.compile(r"/\*(.*?)\*/|//[^\n]*", re.S)


def main(root, rows):
    words, exceptions = rows_of(rows)
    counts, excepted = Counter(), Counter()
    for file in files_of(root):
        for line, word, found in places_of(file, (Path(root) / file).read_text(), words):
            if (file, word) in exceptions:
                excepted[file, word] += 1
            else:
                counts[word] += 1
                print(f"{file}:{line}: '{found}': {words[word][1]}")
    for word in words:
        print(f"{counts[word]:5} places: {word}")
    for file, word in exceptions - set(excepted):
        sys.exit(f"{rows}: an exception without a place: {file}, {word}")
    if counts:
        sys.exit(f"{sum(counts.values())} private words")


def rows_of(path):
    """The words, each with its pattern and a better word, and the exceptions as pairs of a file and a word."""
    words, exceptions = {}, set()
    for number, row in enumerate(Path(path).read_text().splitlines(), 1):
        if not row or row.startswith("#"):
            continue
        kind, *fields = row.split("\t")
        if kind not in KINDS or len(fields) != 3 or not all(fields):
            sys.exit(f"{path}:{number}: the row doesn't have the four fields of a word or an exception")
        if kind == "word":
            words[fields[0]] = re.compile(fields[0].replace(" ", BLANK), re.I), fields[1]
        elif fields[1] in words:
            exceptions.add((fields[0], fields[1]))
        else:
            sys.exit(f"{path}:{number}: {fields[1]} is no word of the rows above")
    return words, exceptions


def files_of(root):
    listed = subprocess.run(
        ["git", "-C", root, "ls-files", "-co", "--exclude-standard"], capture_output=True, text=True, check=True
    )
    files = sorted(file for file in listed.stdout.splitlines() if (Path(root) / file).exists())
    found = [it for it in files if it.endswith(".md") or SOURCE.fullmatch(it) or HEADER.fullmatch(it)]
    return found or sys.exit("no document and no source is found")


def places_of(file, text, words):
    """The line, the word and the text of each place, in the order of the words."""
    # Line numbers stay, since only what isn't prose becomes blank.
    prose = text if file.endswith(".md") else comments(text) if file.endswith(".rt") else blocks(text)
    prose = re.sub(r"(?ms)^ *```.*?^ *```|`[^`\n]*`", blank, prose)
    for word, (pattern, _) in words.items():
        for match in pattern.finditer(prose):
            yield prose.count("\n", 0, match.start()) + 1, word, " ".join(match[0].split())


def comments(text):
    """A source's comments, each on its own line."""
    found = [LINE_COMMENT.search(line) for line in text.split("\n")]
    return "\n".join(match[1] if match else "" for match in found)


def blocks(text):
    """A header's comments, each on its own lines."""
    kept, end = [], 0
    for match in BLOCK_COMMENT.finditer(text):
        kept += [blank(text[end : match.start()]), re.sub(r"(?m)^ \*|[/*]{2,}", "", match[0])]
        end = match.end()
    return "".join(kept) + blank(text[end:])


def blank(text):
    """As many line ends as the text has."""
    return "\n" * (text if isinstance(text, str) else text[0]).count("\n")


if __name__ == "__main__":
    main(*sys.argv[1:])
