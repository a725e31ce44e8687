#!/usr/bin/env bash
# Runs the programs of CALLING and of the tutorial, without proof, in an unbuilt copy of the
# repository: they must print what their comments say. The tutorial's other excerpts must be in
# `crates/example_callers`, where they are proved.
#
# Needs rt on the PATH. The exit status is 0 if every program was right, otherwise 1.
set -u
source "$(dirname "${BASH_SOURCE[0]}")/../trials/lib/running.sh"
source "$root/trials/lib/documents.sh"
need_rt

tutorial=docs/TUTORIAL.md
callers=$root/crates/example_callers
check_excerpts "$tutorial" rattle "$callers"/src/*.rt
check_excerpts "$tutorial" antt "$callers"/specs/*.antt "$callers"/proofs/*/*/*.antt

# Not run: `rt check` would prove the crates below again in the copy, and `rt try` is what runs the
# programs here anyway.
unplayed='rt try
rt check
rt check --start count_keys --allow-holes'
check_unplayed "$tutorial"

copy=$folder/copy
copy_repository "$copy"
for page in crates/collections/CALLING.md "$tutorial"; do
    play_programs "$page" "$copy"
    echo "$page: $programs programs run"
done
