# For trials and lints to source: builds a program, and runs it.
#
#   prepare NAME                         builds the program of crates/NAME if needed
#   prepare_by_rattle                    the same with Rattle's own compiler: $program.by-rattle
#   compare_run LINES REPLIES SECONDS    runs it on a file of lines: it must end in time, with status 0
#                                        and these replies
#   fail WHY                             ends the script, and prints the last run's output
#   need_rt                              ends the script with one line if rt isn't on the PATH
#   is_there COMMAND WHAT                whether a command is installed; if not, prints that WHAT is left out
#   copy_repository FOLDER               makes the folder, an unbuilt copy of the repository
#
# The script's files are in $folder, the last run's output in $folder/output.

root=$(dirname -- "$(readlink -f -- "${BASH_SOURCE[0]}")")/../..
folder=$(mktemp -d) || exit 1
trap 'rm -rf "$folder"' EXIT
touch "$folder/log" "$folder/output"

# Proves and builds the program, if it doesn't exist or is older than its sources.
prepare() {
    crate=$root/crates/$1
    program=$crate/out/$1
    if is_newest "$program"; then
        return
    fi
    need_rt
    (cd "$crate" && rt run) </dev/null >"$folder/log" 2>&1 || fail "the program $1 could not be built"
}

# Whether a program exists, and is no older than the sources.
is_newest() {
    [ -x "$1" ] && [ -z "$(find "$root/crates.txt" "$root"/crates/*/{src,specs,proofs} \
        -newer "$1" -print -quit 2>/dev/null)" ]
}

# Called after prepare, whose program stays in place, although `rt run` writes the same file with either
# compiler.
prepare_by_rattle() {
    local made=$program.by-rattle
    if is_newest "$made"; then
        return
    fi
    cp -p "$program" "$folder/by-llvm" || exit 1
    (cd "$crate" && rt run --backend rattle) </dev/null >"$folder/log" 2>&1
    local status=$?
    cp -p "$program" "$folder/by-rattle" && cp -p "$folder/by-llvm" "$program" || exit 1
    if [ "$status" != 0 ]; then
        fail "Rattle's own compiler didn't build the program, or its run failed"
    fi
    cp -p "$folder/by-rattle" "$made" || exit 1
}

compare_run() {
    timeout "$3" "$program" <"$1" >"$folder/output" 2>"$folder/log"
    local status=$?
    if [ "$status" != 0 ]; then
        fail "the run ended with status $status"
    fi
    diff "$2" "$folder/output" >"$folder/log" || fail "expected (<) and found (>) differ"
}

need_rt() {
    command -v rt >/dev/null || {
        echo "$0: the command rt isn't on the PATH" >&2
        exit 1
    }
}

is_there() {
    command -v "$1" >/dev/null || {
        echo "left out: $2, since $1 isn't installed"
        return 1
    }
}

copy_repository() {
    mkdir -p "$1" || exit 1
    (cd "$root" && tar -c --exclude=out --exclude=target --exclude=.git .) | tar -x -C "$1"
}

fail() {
    tail -n 20 "$folder/log" "$folder/output" >&2
    echo "$0: $1" >&2
    exit 1
}
