#!/usr/bin/env bash
# Runs the program on caches that grow and shrink again and again while their pairs are touched and
# evicted. A plain model keeps the LRU order of each bucket and predicts the pair of each eviction.
#
# Needs rt and python3 on the PATH. The exit status is 0 if every reply was right, otherwise 1.
set -u
source "$(dirname "${BASH_SOURCE[0]}")/lib/running.sh"
prepare bhtable

python3 -B "$root/trials/lib/eviction_order.py" "$program"
