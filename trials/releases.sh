#!/usr/bin/env bash
# Runs the program on 20,000 random lines that raise and lower the minimum while tables of each kind grow
# and shrink, with every 23rd allocation failing, one in each run, and at last with none failing. A plain
# map checks the replies of each run. Each number of slots must be the one of the resize plan, or, if an
# allocation for that failed, the one before: see lib/arrays.py.
#
# Needs rt and python3 on the PATH. The exit status is 0 if every run was right, otherwise 1.
set -u
source "$(dirname "${BASH_SOURCE[0]}")/lib/refusing.sh"
prepare_refusing bhtable

runs=$folder/runs
mkdir "$runs"
python3 -B "$root/trials/lib/releases.py" write "$folder/input" || exit 1
is_refused=1
for ((request = 1; is_refused; request += 23)); do
    run_refusing "$request" <"$folder/input"
    { echo "$status" && cat "$folder/output"; } >"$runs/$request"
done
python3 -B "$root/trials/lib/releases.py" judge "$runs"
