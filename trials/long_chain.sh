#!/usr/bin/env bash
# Runs crates/trial_long_chain on a stack of 64 KiB, built by LLVM and by Rattle's own compiler: 100,000
# blocks of a bucket's chain are dropped at once, and 8,032 pairs with one hash are put and removed.
#
# Needs rt on the PATH. The exit status is 0 if both runs wrote what is in the crate's file stdout,
# otherwise 1.
set -u
source "$(dirname "${BASH_SOURCE[0]}")/lib/running.sh"
prepare trial_long_chain
prepare_by_rattle

# The size of the stack in KiB, and the most seconds that a run may take.
stack=64
seconds=120

# The environment takes space on the stack too, so it is empty.
count=0
for build in "$program" "$program.by-rattle"; do
    begun=$(date +%s%N)
    (ulimit -s "$stack" && ulimit -c 0 && exec timeout "$seconds" env -i "$build") \
        </dev/null >"$folder/output" 2>"$folder/log"
    status=$?
    name=$(basename "$build")
    if [ "$status" != 0 ]; then
        fail "$name ended with status $status on a stack of $stack KiB"
    fi
    diff "$crate/stdout" "$folder/output" >"$folder/log" || fail "expected (<) and found (>) differ"
    echo "$name: $(wc -l <"$folder/output") lines in $((($(date +%s%N) - begun) / 1000000)) ms"
    count=$((count + 1))
done
echo "$count builds on a stack of $stack KiB"
