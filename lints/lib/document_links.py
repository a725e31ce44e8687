"""Finds names in the documents that don't exist in the repository. Called with the repository's root.

In each document it checks the linked files and headings, and in backticks: paths, file names,
definitions as `File.name` or `File: name`, and names that follow one after a comma. All documents
together may have at most WORDS words, as `wc -w` counts them.
"""

import pathlib
import re
import subprocess
import sys

WORDS = 17_000

# Names in backticks that are no files of the repository: a kit's files, build outputs, and a reader's own.
ELSEWHERE = re.compile(r"rattle/.*|bindings/out/.*|crates/NAME/out|libbucket\.(?:a|so)|mine\.\w+|crates/ages(?:/.*)?")

# A file's name, or a path below a folder of the repository.
FILE = re.compile(r"[\w*./-]+\.(?:rt|antt|md|sh|py|rs|cpp|c|h|txt|svg|edit|gnuplot|toml)|(?:%s)/[\w*./-]*")

# A definition: the file's path below specs/, and a name in it. A name in capitals is a type parameter.
DEFINITION = re.compile(r"((?:[A-Z]\w*/)*[A-Z]\w*[a-z]\w*)(?:: |\.)([A-Za-z]\w*)")

# A definition, followed after commas by more names of the same file.
SERIES = re.compile(rf"`{DEFINITION.pattern}`((?:, `\w+`)*)")

LINK = re.compile(r"\[[^]\n]*\]\(([^)\s]+)\)")


def without_blocks(text):
    return re.sub(r"^```.*?^```$", "", text, flags=re.M | re.S)


def anchors(text):
    """The anchors of a document's headings, as GitHub makes them."""
    found = set()
    for heading in re.findall(r"^#+ (.*)$", without_blocks(text), re.M):
        plain = re.sub(r"\[([^]]*)\]\([^)]*\)", r"\1", heading)
        found.add(re.sub(r"[^\w\- ]", "", plain.lower()).replace(" ", "-"))
    return found


class Repository:
    def __init__(self, root):
        self.root = pathlib.Path(root)
        listed = subprocess.run(
            ["git", "-C", root, "ls-files", "-co", "--exclude-standard"], capture_output=True, text=True, check=True
        )
        self.files = sorted(file for file in listed.stdout.splitlines() if (self.root / file).exists())
        self.folders = {str(parent) for file in self.files for parent in pathlib.Path(file).parents}
        self.documents = [file for file in self.files if file.endswith(".md")]
        tops = sorted({file.split("/")[0] for file in self.files if "/" in file})
        self.path = re.compile(FILE.pattern % "|".join(map(re.escape, tops)))
        self.texts = {}

    def text(self, file):
        if file not in self.texts:
            self.texts[file] = (self.root / file).read_text()
        return self.texts[file]

    def has(self, name):
        """Whether the path of a file or a folder is `name`, or ends with it. A star and NAME match any text."""
        name = name.removeprefix("./").rstrip("/").replace("NAME", "*")
        pattern = re.compile("(?:.*/)?" + re.escape(name).replace(r"\*", "[^/]*"))
        return any(pattern.fullmatch(file) for file in [*self.files, *self.folders])

    def defines(self, file, name):
        """Whether a file in specs/ with that path contains the name."""
        paths = [path for path in self.files if "/specs/" in path and path.endswith(f"/{file}.antt")]
        return any(re.search(rf"\b{name}\b", self.text(path)) for path in paths)

    def faults(self, document):
        text = without_blocks(self.text(document))
        yield from self.link_faults(document, text)
        for name in re.findall(r"`([^`\n]+)`", text):
            if self.path.fullmatch(name) and not ELSEWHERE.fullmatch(name) and not self.has(name):
                yield f"it names `{name}`, but there is no such file"
        for file, name, others in SERIES.findall(text):
            for name in [name, *re.findall(r"\w+", others)]:
                if not self.path.fullmatch(f"{file}.{name}") and not self.defines(file, name):
                    yield f"it names {name} of {file}, but specs/ has no such definition"

    def link_faults(self, document, text):
        here = pathlib.PurePosixPath(document).parent
        for link in LINK.findall(text):
            if re.match(r"[a-z]+:", link):
                continue
            path, _, anchor = link.partition("#")
            target = resolved(here / path) if path else document
            if target not in self.files and target not in self.folders:
                yield f"it links {link}, but there is no such file"
            elif anchor and anchor not in anchors(self.text(target)):
                yield f"it links {link}, but there is no such heading"


def resolved(path):
    """A path without `..`."""
    parts = []
    for part in path.parts:
        if part == "..":
            parts.pop()
        elif part != ".":
            parts.append(part)
    return "/".join(parts)


def main(root):
    repository = Repository(root)
    faults = [f"{document}: {fault}" for document in repository.documents for fault in repository.faults(document)]
    words = sum(len(repository.text(document).split()) for document in repository.documents)
    if words > WORDS:
        faults.append(f"the documents have {words} words; at most {WORDS} are allowed")
    if faults:
        sys.exit("\n".join(faults))
    print(f"{len(repository.documents)} documents with {words} words: all that they name exists")


if __name__ == "__main__":
    main(sys.argv[1])
