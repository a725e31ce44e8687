#!/usr/bin/env bash
# Checks the documents against the repository: links, anchors, paths and names of definitions exist,
# and the documents together stay within their limit of words.
#
# Needs git and python3 on the PATH. The exit status is 0 if all checks passed, otherwise 1.
set -u
source "$(dirname "${BASH_SOURCE[0]}")/../trials/lib/running.sh"

python3 -B "$root/lints/lib/document_links.py" "$root"
