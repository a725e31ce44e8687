#!/usr/bin/env bash
# Checks README's figures: the longest insertions are the same in both places, and the counts agree
# with the files: lines of code, specs and proofs, wrong bodies, and random calls.
#
# Needs python3 on the PATH. The exit status is 0 if they agree, otherwise 1.
set -u
source "$(dirname "${BASH_SOURCE[0]}")/../trials/lib/running.sh"

python3 -B "$root/lints/lib/readme_figures.py" "$root/README.md"
