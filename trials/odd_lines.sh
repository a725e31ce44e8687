#!/usr/bin/env bash
# Runs the program on 5,000 random inputs of words, numbers at the edges, odd bytes, blanks, long lines,
# carriage returns and missing newlines. A plain reader of lines determines the first invalid line, and
# a plain map checks the replies to those before.
#
# Needs rt and python3 on the PATH. The exit status is 0 if every run was right, otherwise 1.
set -u
source "$(dirname "${BASH_SOURCE[0]}")/lib/running.sh"
prepare bhtable

python3 -B "$root/trials/lib/odd_lines.py" "$program"
