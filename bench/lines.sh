#!/usr/bin/env bash
# Prints how many lines per second the built program answers, and its peak memory.
# The input is a `new`, 32 puts and a million peeks. It asserts nothing.
set -eu

root=$(dirname -- "$(dirname -- "$(readlink -f -- "${BASH_SOURCE[0]}")")")
program=$root/crates/bhtable/out/bhtable
peeks=1000000

folder=$(mktemp -d)
trap 'rm -r "$folder"' EXIT

awk -v peeks="$peeks" 'BEGIN {
    print "new map id 0 64"
    for (key = 0; key < 32; key++) print "put", key, key * 1000003
    for (at = 0; at < peeks; at++) print "peek", (at * 7) % 40
}' >"$folder/input"

# Proves and builds the program if needed.
"$root/bhtable" --prove </dev/null

# The peak is read once all lines are answered, while the program waits for the end of the pipe.
mkfifo "$folder/pipe"
"$program" <"$folder/pipe" >"$folder/output" &
process=$!
exec 3>"$folder/pipe"
cat "$folder/input" >&3
lines=$(wc -l <"$folder/input")
until [ "$(wc -l <"$folder/output")" -ge "$lines" ]; do sleep 0.01; done
peak=$(awk '$1 == "VmHWM:" { print $2, $3 }' "/proc/$process/status")
exec 3>&-
wait "$process"

start=$(date +%s%N)
"$program" <"$folder/input" >"$folder/output"
end=$(date +%s%N)

awk -v lines="$lines" -v nanoseconds="$((end - start))" -v peak="$peak" 'BEGIN {
    seconds = nanoseconds / 1e9
    printf "%d lines in %.3f s: %.1f million lines per second; peak memory %s\n",
        lines, seconds, lines / seconds / 1e6, peak
}'
