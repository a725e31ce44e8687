"""Tries the wrong bodies: edits of a crate's code that the prover must refuse.

  wrong_bodies.py ROOT KIT JOBS [NAME..]    tries those of these crates, or of all, JOBS crates at a time

A file crates/NAME/wrong_bodies/*.edit has these lines:

  function: PATH    the function whose contract the edit breaks, as `rt check --only` takes it
  refused: LABEL    the clause that the prover must refuse; `returns` if it has no label; or another goal
  file: FILE        the source that is edited; then pairs of lines:
  old: TEXT         a text that is once in the file,
  new: TEXT         and what replaces it

Only these functions and those that they call are checked. That is enough, since a crate isn't proved if one
of its functions isn't. The edits of a crate are tried together: what is refused of a function rests on its
own code and on the contracts of others. Those that hide one another are tried again, with fewer others.
"""

import re
import shutil
import subprocess
import sys
import tempfile
import time
from concurrent.futures import ThreadPoolExecutor
from dataclasses import dataclass
from pathlib import Path

PARTS = ("src", "specs", "proofs")


@dataclass
class Edit:
    name: str
    function: str
    label: str
    # File, text, and what replaces it.
    changes: list

    def apply(self, folder):
        for file, old, new in self.changes:
            text = (folder / file).read_text()
            if text.count(old) != 1:
                sys.exit(f"{self.name}: a text is {text.count(old)} times in {file}, not once: {old.strip()}")
            (folder / file).write_text(text.replace(old, new))


def read_edit(path):
    words, changes, file, old = {}, [], None, None
    for line in path.read_text().splitlines():
        word, _, rest = line.partition(": ")
        if word in ("function", "refused"):
            words[word] = rest
        elif word == "file":
            file = rest
        elif word == "old":
            old = rest
        elif word == "new" and file and old:
            changes.append((file, old, rest))
        else:
            sys.exit(f"{path}: this line can't be read: {line}")
    if set(words) != {"function", "refused"} or not changes:
        sys.exit(f"{path}: it has no function, no label or no change")
    return Edit(path.stem, words["function"], words["refused"], changes)


def read_crates(root):
    """What stands after each crate's name in crates.txt: the libraries that it uses."""
    lines = [it for it in (root / "crates.txt").read_text().splitlines() if it and not it.startswith("#")]
    named = [line.partition(":") for line in lines]
    return {head.split()[0]: rest.split() for head, _, rest in named}


def library(root, name):
    return root / "crates" / name / "out" / "rlib" / f"{name}.rlib"


def is_built(root, name, crates):
    """Whether the library is there, and no older than its sources and those below."""
    # (The files in it may be links to those of an earlier run.)
    made = library(root, name)
    if not (made / "format").is_file():
        return False
    below = [name, *(it for it in crates[name] if it in crates)]
    files = [it for crate in below for part in PARTS for it in (root / "crates" / crate / part).rglob("*")]
    return all(it.stat().st_mtime <= made.stat().st_mtime for it in files if it.is_file())


def build_libraries(root, name, crates):
    """Proves and builds the libraries below a crate, if one of them is missing or out of date."""
    if all(is_built(root, it, crates) for it in crates[name] if it in crates):
        return
    # (This proves nothing of the crate itself.)
    words = ["rt", "check", "--only", ""]
    ran = subprocess.run(words, cwd=root / "crates" / name, stdin=subprocess.DEVNULL, capture_output=True, text=True)
    if ran.returncode:
        sys.exit(f"the libraries below {name} could not be built: {(ran.stdout + ran.stderr)[-900:]}")


def command(root, kit, name, crates, kept):
    """The words that check the crate in the current folder, over what is kept there."""
    main = "src/main.rt" if (root / "crates" / name / "src" / "main.rt").exists() else "src/lib.rt"
    words = [f"{kit}/bin/rattle", "check", "--crate-name", name, main]
    for it in ["std", *crates[name]]:
        made = library(root, it) if it in crates else Path(kit) / "rlibs" / f"{it}.rlib"
        words += ["--extern", f"{it}={made}"]
        words += ["-L", f"dependency={made.parent}"] if it in crates else []
    words += ["-L", f"dependency={kit}/rlibs", "--links", f"{name}=", "--jobs", "1"]
    words += ["--antt-project", f"{kit}/rattle/logic/antt-project.json", "--logic-built", f"{kit}/logic_built"]
    return [*words, "--incremental", str(kept)]


def is_of(label, goal):
    """Whether a goal is that of the label, or one of those of a clause: there is one for each way to return."""
    if goal == label:
        return True
    return goal.startswith("returns") and (goal + "-clause-returns").split("-clause-")[1] == label


def goals_refused(name, edit, said, noted):
    """The goals of an edit's function for which there is no proof, or a wrong one."""
    function = edit.function
    path = re.escape(function.replace("::", "/"))
    without = re.compile(rf"fn {name}::(?:\S+::)?{re.escape(function)}: no proof: .*did not prove (.*)")
    wrong = re.compile(rf"\./proofs/(?:\S+/)?{path}/Answers\.antt:\d+:\d+: error: (`[^`]+`)")
    # (An answer that names what the edit took away says nothing of a goal.)
    lines = [it for it in said.splitlines() if not re.search("has no `|has no field|is not in scope", it)]
    found = [it for line in lines for it in (without.match(line), wrong.match(line)) if it]
    here = {(file, function.split("::")[-1]) for file, _, _ in edit.changes}
    at_places = {goal for file, around, goal in noted if (file, around) in here}
    return at_places | {goal for it in found for goal in re.findall(r"`([^`\s]+)`", it[1])}


def goals_noted(folder, said):
    """The goals that weren't proved at a place of a source, with the file and the function around the place."""
    places = re.findall(r"^note: (src/\S+\.rt):(\d+):(\d+): it is not proved .*\(`([^`]+)`\)", said, re.M)
    found = set()
    for file, line, column, goal in places:
        lines = (folder / file).read_text().splitlines()
        before = "\n".join([*lines[: int(line) - 1], lines[int(line) - 1][: int(column)]])
        around = ["", *re.findall(r"\bfn (\w+)", before)][-1]
        found.add((file, around, goal))
    return found


def check(root, name, words, edits):
    """What the prover says of the functions of these edits in a copy of the crate, and the goals that it notes."""
    with tempfile.TemporaryDirectory() as room:
        folder = Path(room) / name
        for part in PARTS:
            if (root / "crates" / name / part).is_dir():
                shutil.copytree(root / "crates" / name / part, folder / part)
        for edit in edits:
            edit.apply(folder)
        only = [word for edit in edits for word in ("--only", edit.function)]
        ran = subprocess.run([*words, *only], cwd=folder, stdin=subprocess.DEVNULL, capture_output=True, text=True)
        said = ran.stdout + ran.stderr
        return said, goals_noted(folder, said)


def try_crate(root, kit, name, crates, edits):
    """Tries the edits of a crate, and returns how many were refused as they must be."""
    refused, waiting = 0, edits
    with tempfile.TemporaryDirectory() as kept:
        words = command(root, kit, name, crates, kept)
        while waiting:
            begun = time.monotonic()
            together = list({edit.function: edit for edit in reversed(waiting)}.values())
            said, noted = check(root, name, words, together)
            goals = {edit.name: goals_refused(name, edit, said, noted) for edit in together}
            done = [edit for edit in together if any(is_of(edit.label, it) for it in goals[edit.name])]
            for edit in done:
                print(f"{name}/{edit.name}: {edit.label} of {edit.function} is refused")
            refused += len(done)
            if not done:
                # (With others, it may only be hidden.)
                done = together[:1]
                if len(together) > 1:
                    said, noted = check(root, name, words, done)
                found = goals_refused(name, done[0], said, noted)
                is_done = any(is_of(done[0].label, it) for it in found)
                refused += is_done
                what = "is refused" if is_done else f"ISN'T REFUSED, but {sorted(found) or said[-900:]}"
                print(f"{name}/{done[0].name}: {done[0].label} of {done[0].function} {what}")
            waiting = [edit for edit in waiting if edit not in done]
            print(f"{name}: {len(together)} edits together, {time.monotonic() - begun:.0f} s", flush=True)
    return refused


def main(root, kit, jobs, *names):
    root = Path(root)
    crates = read_crates(root)
    edits = {it: sorted((root / "crates" / it / "wrong_bodies").glob("*.edit")) for it in names or crates}
    edits = {name: [read_edit(it) for it in found] for name, found in edits.items() if found}
    if not edits:
        sys.exit(f"no wrong bodies in {' '.join(names)}")
    for name in edits:
        build_libraries(root, name, crates)
    longest_first = sorted(edits, key=lambda it: -len(edits[it]))
    with ThreadPoolExecutor(int(jobs)) as pool:
        refused = sum(pool.map(lambda it: try_crate(root, kit, it, crates, edits[it]), longest_first))
    tried = sum(map(len, edits.values()))
    print(f"{refused} passed, {tried - refused} failed")
    sys.exit(refused != tried)


main(*sys.argv[1:])
