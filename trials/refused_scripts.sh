#!/usr/bin/env bash
# Runs the program on scripts that grow and shrink tables, issue tickets, evict and make tombstones, with
# each allocation failing in turn, one in each run, and at last with none failing. A plain map checks
# the replies of each run, and each key is looked up at the end: see lib/beside.py.
#
# Needs rt and python3 on the PATH. The exit status is 0 if every run was right, otherwise 1.
set -u
source "$(dirname "${BASH_SOURCE[0]}")/lib/refusing.sh"
prepare_refusing bhtable

scripts=$folder/scripts
mkdir "$scripts"
python3 -B "$root/trials/lib/refused_scripts.py" write "$scripts" || exit 1
for script in "$scripts"/*; do
    is_refused=1
    for ((request = 1; request <= most && is_refused; request++)); do
        run_refusing "$request" <"$script/input"
        { echo "$status" && cat "$folder/output"; } >"$script/$request"
    done
    if [ "$is_refused" = 1 ]; then
        fail "no run of $script was done"
    fi
done
python3 -B "$root/trials/lib/refused_scripts.py" judge "$scripts"
