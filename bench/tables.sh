#!/usr/bin/env bash
# Prints the cost of calls on a table that grew from nothing, on the `HashMap` of the collections over
# it, on the kit's and, if `rustc` is installed, on that of Rust's standard library. All use the same
# hash function and the same keys, and take turns in each round. A figure is a median, with the least
# and the greatest; ratios are of medians. A cache of the collections is compared with the kit's `lru`,
# which evicts the least recently used pair of all. The first line is the machine's load: other work
# changes what a call costs. It asserts nothing.
#
# usage: bench/tables.sh [-i] [-p] [ROUNDS]      5 rounds by default
#
# With -i it also prints instructions per call, which takes `valgrind`. With -p it redraws docs/calls.svg
# and docs/insertions.svg with `gnuplot`, from more sizes.
set -eu
root=$(dirname -- "$(dirname -- "$(readlink -f -- "${BASH_SOURCE[0]}")")")

with_instructions=
with_pictures=
while [[ ${1:-} == -* ]]; do
    case $1 in
        -i) with_instructions=yes ;;
        -p) with_pictures=yes ;;
        *) echo "bench/tables.sh: unknown option $1" >&2 && exit 2 ;;
    esac
    shift
done
rounds=${1:-5}

# This makes $folder, which is removed at the end. The program of the table and of the kit's map is
# proved and built if needed.
source "$root/trials/lib/running.sh"
prepare bench_table
maps="table collections kit"
if command -v rustc >/dev/null; then
    rustc -O --edition 2021 -o "$folder/std_map" "$root/bench/std_map.rs"
    maps="table collections kit std"
fi

# run MAP COURSE PAIRS [COMMAND..]: runs a course, under the command if there is one.
run() {
    case $1 in
        table | collections | cache | lru) "${@:4}" "$program" "$1" "$2" "$3" ;;
        kit) "${@:4}" "$program" map "$2" "$3" ;;
        std) "${@:4}" "$folder/std_map" "$2" "$3" ;;
    esac
}

# Everything is built by now, so this is the load of other work, in the minute before.
load=$(cut -d ' ' -f 1 /proc/loadavg)
echo "load: $load"
if awk -v load="$load" 'BEGIN { exit load <= 0.5 }'; then
    echo "The load is above 0.5: the times are those of a busy machine."
fi

jobs=({calls,large,single}\ {1000,64000,1000000} {calls,single}\ 4000000)
if [ -n "$with_pictures" ]; then
    jobs+=(calls\ {4000,16000,256000})
fi

# A line per figure: the pairs, its name, the map, and the figure per call. Of the bytes only a run's
# first figure counts, since later ones reuse memory that the run already had.
for ((round = 0; round < rounds; round++)); do
    for job in "${jobs[@]}"; do
        read -r course pairs <<<"$job"
        for map in $maps; do
            run "$map" "$course" "$pairs" |
                awk -v map="$map" -v pairs="$pairs" \
                    '$1 != "bytes" || !seen++ { print pairs, $1, map, $2 / $3 }'
        done
    done
    for pairs in 1000 64000 1000000; do
        for map in cache lru; do
            run "$map" calls "$pairs" |
                awk -v map="$map" -v pairs="$pairs" '{ print pairs, $1, map, $2 / $3 }'
        done
    done
done | sort -k1,3 -k4,4g >"$folder/figures"

awk -v maps="$maps" '
    {
        group = $1 " " $2 " " $3
        figures[group, ++count[group]] = $4
    }
    function shown(x) { return sprintf(x < 100 ? "%.1f" : "%.0f", x) }
    function median(group) { return figures[group, int((count[group] + 1) / 2)] }
    function line(pairs, name, label, unit,    i, group, text) {
        text = sprintf("%-34s", label)
        for (i = 1; i <= kinds; i++) {
            group = pairs " " name " " kind[i]
            text = text sprintf("%-28s", shown(median(group) / unit) " (" \
                shown(figures[group, 1] / unit) ".." shown(figures[group, count[group]] / unit) ")")
        }
        for (i = 2; i <= kinds; i++)
            text = text sprintf("%-16s", sprintf("x%.2f", \
                median(pairs " " name " " kind[1]) / median(pairs " " name " " kind[i])))
        sub(/ +$/, "", text)
        print text
    }
    function head(title,    i, text) {
        text = sprintf("%-34s", title)
        for (i = 1; i <= kinds; i++) text = text sprintf("%-28s", kind[i])
        for (i = 2; i <= kinds; i++) text = text sprintf("%-16s", "to " kind[i])
        print ""
        sub(/ +$/, "", text)
        print text
    }
    function grown(pairs,    i, text) {
        text = sprintf("%-34s", "  grown to large enough")
        for (i = 1; i <= kinds; i++)
            text = text sprintf("%-28s", sprintf("x%.2f", \
                median(pairs " insert " kind[i]) / median(pairs " large " kind[i])))
        sub(/ +$/, "", text)
        print text
    }
    END {
        kinds = split(maps, kind)
        split("1000 64000 1000000 4000000", sizes)
        for (s = 1; s <= 4; s++) {
            head(sizes[s] " pairs")
            line(sizes[s], "insert", "  insert, grown, ns", 1)
            if (s < 4) {
                line(sizes[s], "large", "  insert, large enough, ns", 1)
                grown(sizes[s])
                line(sizes[s], "emptied", "  remove, large enough, ns", 1)
            }
            line(sizes[s], "hit", "  hit, ns", 1)
            line(sizes[s], "miss", "  miss, ns", 1)
            line(sizes[s], "churn", "  remove one, insert one, ns", 1)
            line(sizes[s], "remove", "  remove, ns", 1)
            line(sizes[s], "walk", "  walk, ns per pair", 1)
            line(sizes[s], "iter", "  iterator, ns per pair", 1)
            line(sizes[s], "sweep", "  sweep or retain, ns per pair", 1)
            line(sizes[s], "bytes", "  bytes per pair", 1)
            line(sizes[s], "longest", "  longest insertion, us", 1000)
            line(sizes[s], "rarely", "  99.99th percentile of these, us", 1000)
        }
        kinds = split("cache lru", kind)
        for (s = 1; s <= 3; s++) {
            head("a cache for " sizes[s] " pairs")
            line(sizes[s], "fill", "  put, the first half, ns", 1)
            line(sizes[s], "touch", "  get, present, ns", 1)
            line(sizes[s], "absent", "  get, absent, ns", 1)
            line(sizes[s], "evict", "  put, mostly evicting, ns", 1)
        }
    }' "$folder/figures"

echo
"$program" arrays

# Instructions, counted over 64 maps of 1,000 pairs; insertions are counted twice on each.
if [ -n "$with_instructions" ] && command -v valgrind >/dev/null; then
    echo
    echo "instructions per call, or per pair, at 1000 pairs"
    for map in $maps; do
        run "$map" calls 1000 valgrind --tool=callgrind --callgrind-out-file="$folder/calls" \
            >/dev/null 2>&1
        callgrind_annotate --inclusive=yes --threshold=100 "$folder/calls" | tr -d , |
            awk -v map="$map" '
                match($0, /(insert|find|miss|churn|remove)_all|::sum|::iterated|::drop_odd/) {
                    name = substr($0, RSTART, RLENGTH)
                    if (!(name in count)) count[name] = $1
                }
                END {
                    printf "  %-6s insert %.0f, hit %.0f, miss %.0f, ", map,
                        count["insert_all"] / 128000, count["find_all"] / 64000,
                        count["miss_all"] / 64000
                    printf "churn %.0f, remove %.0f, ",
                        count["churn_all"] / 64000, count["remove_all"] / 64000
                    printf "walk %.1f, iterator %.1f, sweep %.1f\n",
                        count["::sum"] / 64000, count["::iterated"] / 64000,
                        count["::drop_odd"] / 64000
                }'
    done
fi

# The pictures: medians by size, and the slowest insertions on the way to 4,000,000 pairs.
if [ -n "$with_pictures" ]; then
    awk -v folder="$folder" '
        {
            group = $1 " " $2 " " $3
            figures[group, ++count[group]] = $4
        }
        END {
            for (group in count) {
                split(group, part, " ")
                figure = figures[group, int((count[group] + 1) / 2)]
                if (part[1] == 4000000 && part[2] ~ /^rank|^median/) {
                    rank = part[2] == "median" ? 2000000 : substr(part[2], 5)
                    print rank / 4000000, figure > folder "/single-" part[3]
                } else {
                    print part[1], figure > folder "/" part[2] "-" part[3]
                }
            }
        }' "$folder/figures"
    for file in "$folder"/*-*; do
        sort -g -o "$file" "$file"
    done
    drawn=${maps/collections /}
    gnuplot -e "folder = '$folder'; maps = '$drawn'; docs = '$root/docs'" \
        "$root/bench/pictures.gnuplot"
fi
