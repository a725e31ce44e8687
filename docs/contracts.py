#!/usr/bin/env python3
"""Prints the public calls of bucket_slots and bucket_table, each with the labels of its clauses.

Below each file is a line for each call: the labels of what it ensures, and in brackets those of what it
requires. A star is a clause without a label. A call with nothing behind its name has one clause, without
a label.

Called as `python3 docs/contracts.py [REPOSITORY]`, so that `diff` can compare two revisions. Without an
argument it reads the repository that it is in.
"""

import pathlib
import re
import sys

CRATES = ["bucket_slots", "bucket_table"]

FUNCTION = re.compile(r"(\s*)(pub(?:\([^)]*\))? )?(?:const )?fn (\w+)")
CLAUSE = re.compile(r"\s*(requires|ensures)\*?\s+(?:(\w+)\s+)?\{")
OWNER = re.compile(r"(?:pub )?(impl|trait)\b(.*)")
NAMED = re.compile(r"pub (?:struct|enum|trait|fn) (\w+)")


def module_of(source, file):
    """The path of a file's module below its crate, as a tuple of names."""
    parts = file.relative_to(source).with_suffix("").parts
    return () if parts == ("lib",) else parts


def public_names(texts):
    """The types, traits and free functions that a user of the crate can name."""
    opened = {()}
    for module in sorted(texts, key=len):
        if module and module[:-1] in opened:
            if re.search(rf"^pub mod {module[-1]};", texts[module[:-1]], re.M):
                opened.add(module)
    names = set()
    for module in opened:
        names.update(NAMED.findall("\n".join(re.findall(r"^pub .*", texts[module], re.M))))
        for used in re.findall(r"^pub use ([^;]*);", texts[module], re.M):
            names.update(re.findall(r"\w+", used))
    return names


def owner_of(line):
    """The type or trait of an `impl` or a `trait` line, and whether all its functions are public.

    Those of a trait are. Those of an `impl` of a trait are listed with the trait.
    """
    found = OWNER.match(line)
    if not found:
        return None
    kind, rest = found.groups()
    depth = 0
    plain = ""
    for sign in rest.replace("->", ""):
        depth += (sign == "<") - (sign == ">")
        plain += sign if depth == 0 and sign != ">" else ""
    name = re.sub(r"\b(where|for<)\b.*", "", plain.split("{")[0])
    if kind == "impl" and re.search(r"\bfor\b", name):
        return None, False
    return re.search(r"\w+", name.split(":")[0]).group(), kind == "trait"


def calls_of(text):
    """Each function of a file that may be public: its owner or None, its name and its clauses."""
    owner, all_public, open_call = None, False, None
    # The line that begins an `impl` may go on below.
    lines = re.sub(r"^(impl\b[^{]*)", lambda head: " ".join(head.group().split()) + " ", text, flags=re.M)
    for line in lines.splitlines():
        if line[:1] not in ("", " ", "}", "/", "#"):
            owner, all_public = owner_of(line) or (None, False)
        # The body of a function: clauses in it are those of loops.
        if line.strip() == "{":
            open_call = None
        function = FUNCTION.match(line)
        if function:
            indent, is_pub, name = function.groups()
            inside = bool(indent)
            open_call = None
            if is_pub == "pub " or (inside and all_public):
                open_call = (owner if inside else None, inside, name, [])
                yield open_call
        clause = CLAUSE.match(line)
        if clause and open_call:
            kind, label = clause.groups()
            open_call[3].append((kind, label))


def labels(clauses, wanted):
    """The labels of the clauses of one kind: a star for one without."""
    return ",".join(label or "*" for kind, label in clauses if kind == wanted)


def row(call):
    """The line of a call."""
    owner, _, name, clauses = call
    title = f"{owner}::{name}" if owner else name
    if clauses == [("ensures", None)]:
        return f"  {title}"
    required = labels(clauses, "requires")
    return f"  {title}: {labels(clauses, 'ensures')}" + (f" [{required}]" if required else "")


def main(arguments):
    if len(arguments) > 1:
        sys.exit("usage: docs/contracts.py [REPOSITORY]")
    root = pathlib.Path(arguments[0] if arguments else pathlib.Path(__file__).resolve().parent.parent)
    for crate in CRATES:
        source = root / "crates" / crate / "src"
        texts = {module_of(source, file): file.read_text() for file in sorted(source.rglob("*.rt"))}
        if not texts:
            sys.exit(f"{source}: no sources")
        public = public_names(texts)
        for module, text in texts.items():
            # A call gets its clauses after it is yielded.
            calls = [call for call in list(calls_of(text)) if call[3]]
            rows = [row(call) for call in calls if (call[0] if call[1] else call[2]) in public]
            if rows:
                print("\n".join([f"{crate}/src/{'/'.join(module) or 'lib'}.rt", *rows]))


if __name__ == "__main__":
    main(sys.argv[1:])
