#!/usr/bin/env bash
# Tries the wrong bodies in crates/NAME/wrong_bodies: edits of the code, each of which the prover must
# refuse for the clause that its file names. The libraries below are proved and built if needed.
#
# usage: trials/wrong_bodies.sh [NAME..]    those of these crates, or of all; RT_JOBS crates at a time
#                                           (default two)
#
# Needs rt and python3 on the PATH. The exit status is 0 if all were refused, otherwise 1.
set -u
source "$(dirname "${BASH_SOURCE[0]}")/lib/running.sh"
need_rt
python3 -B "$root/trials/lib/wrong_bodies.py" "$root" "$(dirname -- "$(rt doc)")" "${RT_JOBS:-2}" "$@"
