#!/usr/bin/env bash
# Runs crates/trial_refused_memory with each allocation failing in turn, one in each run, and at last with
# none failing. The program judges each run itself: see the head of its main.rt.
#
# Digests aren't needed: a run must be `done` if the allocation that failed is one of digests, and only
# then. An array of eight buckets or more allocates its digests in two steps, one after the other, of 4
# and of 32 bytes per bucket.
#
# Needs rt on the PATH. The exit status is 0 if every run was right, otherwise 1.
set -u
source "$(dirname "${BASH_SOURCE[0]}")/lib/refusing.sh"
prepare_refusing trial_refused_memory

# The numbers of the allocations of digests, each with a space on both sides. They are unknown if refuse.c
# can't be preloaded.
digests=
if [ -n "$shim" ]; then
    ASKED_BYTES=1 run_refusing "$most" </dev/null
    digests=" $(awk '$1 == "asked" {
            is_power = $2 >= 32
            for (rest = $2; rest > 1; rest /= 2) if (rest % 2) is_power = 0
            number++
            if (first && $2 == 8 * first) print number - 1, number
            first = first && $2 == 8 * first || !is_power ? 0 : $2
        }' "$folder/log" | tr '\n' ' ')"
fi
is_of_digests() {
    [ -z "$shim" ] || [[ $digests == *" $1 "* ]]
}

as_before=0
not_resized=0
not_moved=0
unneeded=0
for ((request = 1; request <= most; request++)); do
    run_refusing "$request" </dev/null
    outcome=$(cat "$folder/output")
    case "$outcome, status $status" in
        "done, status 0") [ "$is_refused" = 1 ] || break
            is_of_digests "$request" || fail "allocation $request failed, which isn't for digests: $outcome"
            unneeded=$((unneeded + 1))
            continue
            ;;
        "as before, status 10") as_before=$((as_before + 1)) ;;
        "not resized, status 13") not_resized=$((not_resized + 1)) ;;
        "not moved, status 14") not_moved=$((not_moved + 1)) ;;
        *) fail "allocation $request failed: $outcome, status $status" ;;
    esac
    [ -z "$shim" ] || ! is_of_digests "$request" || fail "allocation $request failed, which is for digests: $outcome"
    [ "$is_refused" = 1 ] || fail "allocation $request didn't fail, and yet the run was $outcome"
done

if ((request > most)); then
    fail "no run was done"
fi
if ((as_before == 0 || not_resized == 0 || not_moved == 0 || unneeded == 0)); then
    fail "no failure was in a call, or none in a resize, in a look-up's move, or in a digest"
fi
counts="$as_before as before, $not_resized not resized, $not_moved not moved, $unneeded done without digests"
echo "$((request - 1)) allocations failed: $counts, then done"
