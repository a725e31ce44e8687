#!/usr/bin/env bash
# Runs the program on one input with each allocation failing in turn, one in each run, and at last with
# none failing. The output must be every reply; or the first replies, then `no memory` and status 3; or
# every reply with `refused 3` in place of one `ok`.
#
# Needs rt on the PATH. The exit status is 0 if every run was right, otherwise 1.
set -u
source "$(dirname "${BASH_SOURCE[0]}")/lib/refusing.sh"
prepare_refusing bhtable

# More keys with one hash than a bucket has own slots: the first allocates the array, later ones a block
# of the chain, then another. The keys that are read and removed aren't the first and are in own slots,
# so they are present whichever allocation failed.
{
    echo "new map zero 0 64"
    echo "put 500 600"
    for key in {0..36}; do echo "put $key $((key + 100))"; done
    echo "put 0 7"
    echo "peek 30"
    echo "remove 0"
    echo "read 0"
} >"$folder/input"
{
    echo ok
    echo ok
    for key in {0..36}; do echo ok; done
    echo present
    echo "value 130"
    echo "pair 0 100"
    echo absent
} >"$folder/expected"

# Whether the output is the first expected replies and `no memory`, with status 3.
ran_out() {
    local replies=$(($(wc -l <"$folder/output") - 1))
    [ "$status" = 3 ] && ((replies >= 0)) && [ "$(tail -n 1 "$folder/output")" = "no memory" ] &&
        cmp -s <(head -n "$replies" "$folder/output") <(head -n "$replies" "$folder/expected")
}

# Whether the output is the expected replies with `refused 3` in place of one `ok`, with status 0.
refused_once() {
    [ "$status" = 0 ] &&
        [ "$(diff "$folder/expected" "$folder/output" | grep '^[<>]')" = $'< ok\n> refused 3' ]
}

ended_early=0
refusals=0
every_reply=0
for ((request = 1; request <= most; request++)); do
    run_refusing "$request" <"$folder/input"
    if [ "$status" = 0 ] && cmp -s "$folder/expected" "$folder/output"; then
        [ "$is_refused" = 1 ] || break
        every_reply=$((every_reply + 1))
    elif [ "$is_refused" = 0 ]; then
        fail "no allocation failed, and yet the output is wrong, status $status"
    elif ran_out; then
        ended_early=$((ended_early + 1))
    elif refused_once; then
        refusals=$((refusals + 1))
    else
        fail "allocation $request failed: wrong output, status $status"
    fi
done

if ((request > most)); then
    fail "no run was complete"
fi
if ((ended_early == 0 || refusals == 0)); then
    fail "no failure gave a reply, or none ended a run"
fi
echo "$((request - 1)) allocations failed: $refusals gave a reply, $ended_early ended the run," \
    "$every_reply did neither"
