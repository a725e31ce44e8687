#!/usr/bin/env bash
# Runs the program on a map of 8,032 keys with one hash: once they are put and removed in reverse, and
# once put and relocated together. Each reply is compared, and each run must end within 20 seconds.
#
# Needs rt and python3 on the PATH. The exit status is 0 if every reply was right, otherwise 1.
set -u
source "$(dirname "${BASH_SOURCE[0]}")/lib/running.sh"
prepare bhtable

python3 -B "$root/trials/lib/one_hash.py" "$folder" || exit 1
count=0
for lines in "$folder"/*.lines; do
    name=$(basename "$lines" .lines)
    begun=$(date +%s%N)
    compare_run "$lines" "$folder/$name.replies" 20
    echo "$name: $(wc -l <"$lines") lines in $((($(date +%s%N) - begun) / 1000000)) ms"
    count=$((count + 1))
done
echo "$count scripts on 8032 keys with one hash"
