#!/usr/bin/env bash
# Prints the cost of moving pairs from one collection to another, and of going through one in the order
# of its slots, in which the keys of one bucket follow each other. If `rustc` is installed, the same is
# timed with the collections of Rust's standard library, under the collections' default hash ('same')
# and under std's own ('default'). Also prints the longest insertion of a copy, calls that only count,
# and collections of few pairs.
#
# A figure is a median. If std has no such collection, as for an index, its map takes the place. The
# first line is the machine's load: other work changes what a call costs. It asserts nothing.
#
# usage: bench/shapes.sh [ROUNDS]      3 rounds by default
#
# With PROGRAM=FILE in the environment it runs that file, a build of crates/bench_table, and proves
# nothing.
set -eu
root=$(dirname -- "$(dirname -- "$(readlink -f -- "${BASH_SOURCE[0]}")")")
rounds=${1:-3}

# This makes $folder, which is removed at the end. The program is proved and built if needed.
source "$root/trials/lib/running.sh"
if [ -n "${PROGRAM:-}" ]; then
    program=$PROGRAM
else
    prepare bench_table
fi
columns=here
if command -v rustc >/dev/null; then
    rustc -O --edition 2021 -o "$folder/std_shapes" "$root/bench/std_shapes.rs"
    columns="here same default"
fi

# run COLUMN GROUP PAIRS: runs a group of shapes.
run() {
    case $1 in
        here) "$program" shapes "$2" "$3" ;;
        *) "$folder/std_shapes" "$2" "$3" "$1" ;;
    esac
}

# Everything is built by now, so this is the load of other work, in the minute before.
load=$(cut -d ' ' -f 1 /proc/loadavg)
echo "load: $load"
if awk -v load="$load" 'BEGIN { exit load <= 0.5 }'; then
    echo "The load is above 0.5: the times are those of a busy machine."
fi

jobs=({map,set,index,cache}\ {1000,8000,64000,512000} small\ 64000 longest\ 128000
    counts\ {1000,64000,1000000} crowd\ 10000)

# A line per figure: the column, the pairs, the nanoseconds per pair or call, the share of pairs that
# are left at the end, and the shape.
for ((round = 0; round < rounds; round++)); do
    for job in "${jobs[@]}"; do
        read -r group pairs <<<"$job"
        for column in $columns; do
            run "$column" "$group" "$pairs" |
                awk -v column="$column" -v pairs="$pairs" '{
                    name = $4
                    for (i = 5; i <= NF; i++) name = name " " $i
                    printf "%s\t%s\t%.2f\t%.4f\t%s\n", column, pairs, $1 / $2, $3 / pairs, name
                }'
        done
    done
done >"$folder/figures"
sort -t "$(printf '\t')" -k3,3g "$folder/figures" >"$folder/sorted"

# Reads the figures twice: in the order in which they came, for the order of the shapes, and by size.
awk -F '\t' -v columns="$columns" '
    NR == FNR { if (!seen[$5]++) shape[++shapes] = $5; next }
    {
        group = $1 " " $2 " " $5
        figures[group, ++count[group]] = $3
        left[group] = $4
    }
    function shown(x) { return sprintf(x < 100 ? "%.1f" : "%.0f", x) }
    function figure(column, size, name, unit,    group, n) {
        group = column " " size " " name
        n = count[group]
        return n ? shown(figures[group, int((n + 1) / 2)] / unit) : "-"
    }
    function head(title,    wide, c, s, text) {
        text = sprintf("\n%-" (sizes == 1 ? 38 : 44) "s", title)
        wide = (sizes == 1 ? "%" : "%-") 10 * sizes "s"
        for (c = 1; c <= kinds; c++) text = text sprintf(wide, kind[c])
        sub(/ +$/, "", text)
        print text
        if (sizes == 1) return
        text = sprintf("%-38s", "")
        for (c = 1; c <= kinds; c++)
            for (s = 1; s <= sizes; s++) text = text sprintf("%10s", size[s])
        print text
    }
    function line(name, label, unit,    c, s, text) {
        text = sprintf("%-38s", "  " label)
        for (c = 1; c <= kinds; c++)
            for (s = 1; s <= sizes; s++)
                text = text sprintf("%10s", figure(kind[c], size[s], name, unit))
        print text
    }
    function table(title, names, unit, prefix,    i) {
        head(title)
        for (i = 1; i <= shapes; i++)
            if (shape[i] ~ names) line(shape[i], substr(shape[i], prefix), unit)
    }
    END {
        kinds = split(columns, kind, " ")
        small = "insert 3|insert, remove|insert 1|3 pairs"
        sizes = split("1000 8000 64000 512000", size, " ")
        head("ns per pair")
        for (i = 1; i <= shapes; i++)
            if (shape[i] !~ small && shape[i] !~ /^(counts|crowd)|longest/)
                line(shape[i], shape[i], 1)
        text = sprintf("%-38s", "  cache: % that a loop keeps")
        for (s = 1; s <= sizes; s++)
            text = text sprintf("%10s", sprintf("%.2f", 100 * left["here " size[s] " cache: loop"]))
        print text
        sizes = split("1000 64000 1000000", size, " ")
        table("ns per call", "^counts", 1, 9)
        sizes = split("10000", size, " ")
        table("ns per call, 10000 keys of one hash", "^crowd", 1, 8)
        sizes = split("64000", size, " ")
        table("ns per round, few pairs", small, 1, 1)
        sizes = split("128000", size, " ")
        table("us, in a copy of 128000 pairs", "longest", 1000, 1)
    }' "$folder/figures" "$folder/sorted"
