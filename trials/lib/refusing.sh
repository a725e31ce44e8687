# For trials to source: runs a program in which one allocation fails, or random ones.
#
#   prepare_refusing NAME   builds the program of crates/NAME if needed, and refuse.c
#   run_refusing NUMBER     runs it with that allocation failing, counted from 1: its output goes to
#                           $folder/output and its messages to $folder/log. Afterwards $status is its
#                           exit status, and $is_refused is 1, or 0 if it made fewer allocations
#   run_by_chance SEED      the same with random allocations failing, equal in each run of a seed;
#                           afterwards $refusals is how many failed
#
# refuse.c is preloaded, so a run takes milliseconds. If preloading doesn't work, $shim is empty: then
# `rt try --fail-alloc` makes an allocation fail, which takes a minute a run, and run_by_chance ends the
# trial. With refuse.c, NUMBER may be a list of rising numbers with commas between them; then $is_refused
# is how many of these allocations failed.

source "$(dirname "${BASH_SOURCE[0]}")/running.sh"

# More allocations than a program makes.
most=10000

prepare_refusing() {
    prepare "$1"
    shim=
    if cc -O1 -Wall -Wextra -shared -fPIC "$root/trials/lib/refuse.c" -o "$folder/refuse.so" -ldl \
        >"$folder/log" 2>&1; then
        shim=$folder/refuse.so
        run_refusing 1 </dev/null
        [ "$is_refused" = 1 ] || shim=
    fi
    [ -n "$shim" ] || echo "$0: refuse.c can't be preloaded, so each run takes a minute" >&2
}

run_refusing() {
    if [ -n "$shim" ]; then
        REFUSED_REQUEST=$1 LD_PRELOAD=$shim "$program" >"$folder/output" 2>"$folder/log"
        status=$?
        is_refused=$(grep -cx refused "$folder/log")
        return
    fi
    (cd "$crate" && rt try --fail-alloc "$1") >"$folder/output" 2>"$folder/log"
    status=$?
    local asked
    asked=$(sed -n 's/^allocations: \([0-9][0-9]*\)$/\1/p' "$folder/log")
    [ -n "$asked" ] || fail "allocation $1: the run doesn't report how many allocations it made"
    is_refused=$((asked >= $1))
}

# The fewest bytes of an allocation that run_by_chance makes fail. What a call and its reply allocate on
# their way is less and succeeds, as do the first two allocations of a run, so the run goes on.
least_refused=100

run_by_chance() {
    [ -n "$shim" ] || fail "refuse.c can't be preloaded, so random allocations can't fail"
    REFUSED_REQUEST=2 REFUSED_SEED=$1 REFUSED_BYTES=$least_refused LD_PRELOAD=$shim "$program" \
        >"$folder/output" 2>"$folder/log"
    status=$?
    refusals=$(grep -cx refused "$folder/log")
}
