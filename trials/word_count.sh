#!/usr/bin/env bash
# Compares crates/example_word_count with a plain count: lines of odd bytes, empty lines, many and few
# different lines, with and without a last newline. Then runs it when a device fails or memory is short.
#
# Needs rt and python3 on the PATH. The exit status is 0 if every output and status was right, otherwise 1.
set -u
source "$(dirname "${BASH_SOURCE[0]}")/lib/running.sh"
prepare example_word_count

python3 -B "$root/trials/lib/word_count.py" "$program" || exit 1

# ended FOUND STATUS MESSAGE: a run that ended with FOUND must have had this status, and this message.
ended() {
    [ "$1" = "$2" ] || fail "a run ended with status $1, not $2"
    [ "$(cat "$folder/log")" = "example_word_count: $3" ] || fail "a run didn't print the message: $3"
}

"$program" <"$crate/stdin" >/dev/full 2>"$folder/log"
ended $? 4 "output failed"
"$program" </ >"$folder/output" 2>"$folder/log"
ended $? 4 "input failed"
head -c 30000000 /dev/zero >"$folder/zeros"
(ulimit -v 20000 && exec "$program") <"$folder/zeros" >"$folder/output" 2>"$folder/log"
ended $? 3 "no memory"
[ ! -s "$folder/output" ] || fail "something was printed before memory ran out"
echo "3 failures were reported"
