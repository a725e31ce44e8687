#!/usr/bin/env bash
# Runs the program on stories of tables of each kind, on lines that can't be read, on input that comes in
# pieces or fails, and with output that fails, and compares each reply and the status.
#
# Needs rt, python3 and a C compiler cc. The exit status is 0 if all were right, otherwise 1.
set -u
source "$(dirname "${BASH_SOURCE[0]}")/lib/running.sh"
prepare bhtable
cc -O1 -Wall -Wextra -shared -fPIC "$root/trials/lib/faults.c" -o "$folder/faults.so" || exit 1

# A line that is never answered ends the trial.
timeout 300 python3 -B "$root/trials/lib/stories" "$program" "$folder/faults.so"
