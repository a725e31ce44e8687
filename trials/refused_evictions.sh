#!/usr/bin/env bash
# Runs the program on caches that grow and shrink while random allocations fail, with other lines and
# failures in each run. A plain model keeps the LRU order of each bucket and predicts the pair of each
# eviction: see lib/refused_evictions.py.
#
# Needs rt, python3 and cc on the PATH. The exit status is 0 if every run was right, otherwise 1.
set -u
source "$(dirname "${BASH_SOURCE[0]}")/lib/refusing.sh"
prepare_refusing bhtable

inputs=$folder/inputs
runs=$folder/runs
mkdir "$inputs" "$runs"
python3 -B "$root/trials/lib/refused_evictions.py" write "$inputs" || exit 1
for input in "$inputs"/*; do
    seed=$(basename "$input")
    run_by_chance "$seed" <"$input"
    { echo "$status $refusals" && cat "$folder/output"; } >"$runs/$seed"
done
python3 -B "$root/trials/lib/refused_evictions.py" judge "$runs"
