#!/usr/bin/env bash
# Runs crates/trial_refused_collections while random allocations fail, different ones in each run. The
# program judges each answer of its collections itself: see the head of its main.rt.
#
# Needs rt and a C compiler cc on the PATH. The exit status is 0 if every run was right, and in each run
# each collection under each hash failed to insert a pair, and each map and set failed to make a copy;
# otherwise it is 1.
set -u
source "$(dirname "${BASH_SOURCE[0]}")/lib/refusing.sh"
prepare_refusing trial_refused_collections

# The program allocates only the memory of its collections, and a block of a set is small.
least_refused=1

# The number of runs, and what extracts from a line how many pairs weren't inserted, and how many copies
# weren't made.
runs=8
count='s/^.* \([0-9][0-9]*\) failed, right$/\1/p'
copies_count='s/^.* \([0-9][0-9]*\) not copied, .*$/\1/p'

requests=0
pairs=0
copies=0
for ((seed = 1; seed <= runs; seed++)); do
    run_by_chance "$seed" </dev/null
    [ "$status" = 0 ] || fail "seed $seed: status $status"
    mapfile -t refused < <(sed -n "$count" "$folder/output")
    [ "${#refused[@]}" = 12 ] || fail "seed $seed: ${#refused[@]} of twelve collections were right"
    for pairs_of_one in "${refused[@]}"; do
        ((pairs_of_one > 0)) || fail "seed $seed: one of the collections never failed to insert a pair"
        pairs=$((pairs + pairs_of_one))
    done
    mapfile -t not_copied < <(sed -n "$copies_count" "$folder/output")
    [ "${#not_copied[@]}" = 6 ] || fail "seed $seed: ${#not_copied[@]} of six collections were copied"
    for copies_of_one in "${not_copied[@]}"; do
        ((copies_of_one > 0)) || fail "seed $seed: one of the collections never failed to be copied"
        copies=$((copies + copies_of_one))
    done
    requests=$((requests + refusals))
done

echo "$runs runs: $requests allocations, $pairs insertions and $copies copies failed, every answer is correct"
