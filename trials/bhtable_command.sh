#!/usr/bin/env bash
# Runs the command ./bhtable with its program built, in an unbuilt copy of the sources, and there past
# the limit of a run without proof: with lines from a file, from a pipe, and with an invalid line.
#
# Needs rt on the PATH. The exit status is 0 if replies, status and messages were right, otherwise 1.
set -u
source "$(dirname "${BASH_SOURCE[0]}")/lib/running.sh"
prepare bhtable

printf '%s\n' "new map id 0 64" "put 1 0" "put 1 5" "peek 1" "remove 1" >"$folder/lines"
printf '%s\n' ok ok present "value 0" "pair 1 0" >"$folder/replies"
printf '%s\n' "new map id 0 64" "put 1 0" "putt 1 5" "peek 1" >"$folder/bad"
printf '%s\n' ok ok "bad line 3" >"$folder/bad_replies"
unproved="running the sources without their proof"

# ran FOUND STATUS REPLIES MESSAGE: the last run, which ended with FOUND, must have had this status, these
# replies and this message. If MESSAGE is empty, it must have printed no message.
ran() {
    local found=$1
    [ "$found" = "$2" ] || fail "the status is $found, not $2"
    diff "$3" "$folder/output" || fail "expected (<) and found (>) differ"
    if [ -z "$4" ]; then
        [ ! -s "$folder/log" ] || fail "it printed a message"
    else
        grep -qF -- "$4" "$folder/log" || fail "the message is missing: $4"
    fi
    count=$((count + 1))
}

count=0
for words in "" --prove; do
    # shellcheck disable=SC2086
    "$root/bhtable" $words <"$folder/lines" >"$folder/output" 2>"$folder/log"
    ran $? 0 "$folder/replies" ""
    # shellcheck disable=SC2086,SC2002
    cat "$folder/bad" | "$root/bhtable" $words >"$folder/output" 2>"$folder/log"
    ran $? 2 "$folder/bad_replies" ""
done

# An unbuilt copy of the sources.
copy=$folder/copy
copy_repository "$copy"
"$copy/bhtable" <"$folder/lines" >"$folder/output" 2>"$folder/log"
ran $? 0 "$folder/replies" "$unproved"
[ "$(wc -l <"$folder/log")" = 1 ] || fail "it printed more than one line"
# shellcheck disable=SC2002
cat "$folder/bad" | "$copy/bhtable" >"$folder/output" 2>"$folder/log"
ran $? 2 "$folder/bad_replies" "$unproved"

# More lines than it answers without proof: it answers none.
: >"$folder/nothing"
{
    echo "new map id 0 65536"
    for ((key = 0; key < 200000; key++)); do echo "put $key $key"; done
} >"$folder/many"
"$copy/bhtable" <"$folder/many" >"$folder/output" 2>"$folder/log"
ran $? 1 "$folder/nothing" "--prove has no limit"

# The built program, in the copy: it counts as built if only the list of crates or another crate is
# newer, but not if a source of its own is.
mkdir -p "$copy/crates/bhtable/out"
cp "$root/crates/bhtable/out/bhtable" "$copy/crates/bhtable/out/bhtable"
touch "$copy/crates.txt" "$copy/crates/collections/src/lib.rt"
"$copy/bhtable" <"$folder/lines" >"$folder/output" 2>"$folder/log"
ran $? 0 "$folder/replies" ""
touch "$copy/crates/bhtable/src/lines.rt"
"$copy/bhtable" <"$folder/lines" >"$folder/output" 2>"$folder/log"
ran $? 0 "$folder/replies" "$unproved"

echo "$count runs of the command: replies, status and messages are right"
