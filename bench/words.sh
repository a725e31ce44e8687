#!/usr/bin/env bash
# Prints how long crates/example_word_count takes to count the lines of a file, and how long
# `sort | uniq -c | sort -rn` takes: a median, with the least and the greatest, in milliseconds. The two
# take turns in each round. The file has 1,000,000 lines of 100,000 words, some far more frequent than
# others. It asserts only that both print the same counts and lines.
#
# usage: bench/words.sh [ROUNDS]      5 rounds by default
set -eu
export LC_ALL=C
root=$(dirname -- "$(dirname -- "$(readlink -f -- "${BASH_SOURCE[0]}")")")
rounds=${1:-5}

folder=$(mktemp -d)
trap 'rm -r "$folder"' EXIT

# The program is proved and built if needed.
if ! (cd "$root/crates/example_word_count" && rt run) >"$folder/log" 2>&1; then
    cat "$folder/log" >&2
    exit 1
fi
program=$root/crates/example_word_count/out/example_word_count

# The square of a uniform random number from 0 to 1 is often small, so words of low numbers are frequent.
awk 'BEGIN {
    srand(1)
    for (line = 0; line < 1000000; line++) {
        drawn = rand()
        print "word " int(drawn * drawn * 100000)
    }
}' >"$folder/words"

count_by_table() {
    "$program" <"$folder/words" >"$folder/table"
}

count_by_sort() {
    sort "$folder/words" | uniq -c | sort -rn >"$folder/sorted"
}

# Prints how many milliseconds a command takes.
timed() {
    local begun
    begun=$(date +%s%N)
    "$@"
    echo $((($(date +%s%N) - begun) / 1000000))
}

for ((round = 0; round < rounds; round++)); do
    for way in table sort; do
        echo "$way $(timed "count_by_$way")"
    done
done >"$folder/times"

# Both print the same counts and lines; lines of one count may come in any order.
diff <(sort "$folder/table") <(sed 's/^ *//' "$folder/sorted" | sort) >"$folder/log" ||
    { echo "bench/words.sh: the two disagree" >&2 && exit 1; }

echo "$(wc -l <"$folder/words") lines, $(wc -l <"$folder/table") of them different"
for way in table sort; do
    grep "^$way " "$folder/times" | cut -d ' ' -f 2 | sort -n | awk -v way="$way" '
        { time[NR] = $1 }
        END { printf "%s: %d ms (%d to %d)\n", way, time[int((NR + 1) / 2)], time[1], time[NR] }'
done
