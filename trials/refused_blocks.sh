#!/usr/bin/env bash
# Runs crates/trial_refused_blocks while allocations of a new bucket's blocks fail; each block is one
# allocation. A bucket has 32 own slots and a block has four: if the second of two blocks fails, the
# first stays, and 36 slots are free; once memory is back, one more block makes 40.
#
# Needs rt and a C compiler cc on the PATH. The exit status is 0 if every answer was right, otherwise 1.
set -u
source "$(dirname "${BASH_SOURCE[0]}")/lib/refusing.sh"
prepare_refusing trial_refused_blocks
[ -n "$shim" ] || fail "refuse.c can't be preloaded"

# The allocation of the first block is the first whose failure changes an answer.
first=1
run_refusing "$first"
until [ "$is_refused" = 0 ] || grep -q failed "$folder/output"; do
    first=$((first + 1))
    run_refusing "$first"
done
printf '%s\n' "40 failed" "36 reserved" "37 reserved" "40 reserved" "40 reserved" "41 reserved" \
    >"$folder/expected"
diff "$folder/expected" "$folder/output" >"$folder/log" || fail "wrong answers when the first block fails"

# The second block fails in the call for 40 slots, and again in that for 37; then it succeeds, and a
# third one fails in the call for 41.
run_refusing "$((first + 1)),$((first + 2)),$((first + 4))"
[ "$is_refused" = 3 ] || fail "$is_refused of three allocations were made and failed"
printf '%s\n' "40 failed" "36 reserved" "37 failed" "40 reserved" "40 reserved" "41 failed" \
    >"$folder/expected"
diff "$folder/expected" "$folder/output" >"$folder/log" || fail "wrong answers when the second block fails"

echo "the first and the second of two blocks failed: 6 correct answers each"
