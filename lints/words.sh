#!/usr/bin/env bash
# Looks for private words, those of lints/words.tsv, in the documents, the comments and docstrings of
# the crates' sources, and the comments of the bindings' headers. Code is left out: what is in backticks
# and in code blocks. Prints each place with a better word, and how many places each word has.
#
# Needs git and python3 on the PATH. The exit status is 0 if there is no such word, otherwise 1.
set -u
source "$(dirname "${BASH_SOURCE[0]}")/../trials/lib/running.sh"

python3 -B "$root/lints/lib/words.py" "$root" "$root/lints/words.tsv"
