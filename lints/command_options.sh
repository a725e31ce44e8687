#!/usr/bin/env bash
# Calls ./bhtable and ./check with each option that runs no program, with unknown options, and without
# rt on the PATH, and checks the output, the messages and the exit status. A repository made here has
# the commit that `--version` prints.
#
# Needs rt and git on the PATH. The exit status is 0 if all checks passed, otherwise 1.
set -u
source "$(dirname "${BASH_SOURCE[0]}")/../trials/lib/running.sh"
need_rt
copy=$folder/copy
copy_repository "$copy"

# called STATUS COMMAND WORD..: calls a command of the copy, with empty input. It must end within
# 20 seconds, with that status.
count=0
called() {
    local expected=$1 status
    shift
    timeout 20 "$copy/$1" "${@:2}" </dev/null >"$folder/output" 2>"$folder/log"
    status=$?
    [ "$status" = "$expected" ] || fail "$*: the status is $status, not $expected"
    count=$((count + 1))
}

# says FILE TEXT..: of the last call's output and log, FILE has these texts, and the other is empty.
says() {
    local other=log text
    [ "$1" = output ] || other=output
    for text in "${@:2}"; do
        grep -qF -- "$text" "$folder/$1" || fail "the text is missing: $text"
    done
    [ ! -s "$folder/$other" ] || fail "it wrote to standard output and to standard error"
}

# commit_in FOLDER NAME: makes a repository and an empty first commit there.
commit_in() {
    git init -q "$1" && in_repository "$1" commit -q --allow-empty -m "$2" || exit 1
}

in_repository() {
    git -C "$1" -c user.name=lint -c user.email=lint@localhost "${@:2}"
}

called 0 bhtable --help
says output "usage: bhtable [--prove] < FILE" --prove --help --version
called 0 check --help
says output "usage: ./check [--quick]" --quick --help "processor minutes" "5 minutes"

called 1 bhtable --quickly
says log --quickly
called 1 bhtable --prove --quickly
says log --quickly
called 1 bhtable lines.txt
says log lines.txt
called 1 check --fast
says log --fast
called 1 check --quick --fast
says log --fast

# A copy without a repository of its own has no commit, even inside another repository.
commit_in "$folder" outer
called 0 bhtable --version
says output "commit unknown" "kit $(rt version)"
commit_in "$copy" first
called 0 bhtable --version
says output "commit $(git -C "$copy" rev-parse --short HEAD)"
in_repository "$copy" tag -a -m second v2 || exit 1
commit_in "$copy" third
called 0 bhtable --version
says output "commit v2-1-g$(git -C "$copy" rev-parse --short HEAD)"

# Without rt: the folder has only the tools that the commands call.
mkdir "$folder/tools"
for tool in bash cat dirname find git readlink timeout; do
    ln -s "$(command -v "$tool")" "$folder/tools/$tool" || exit 1
done
for words in bhtable check "check --quick"; do
    # shellcheck disable=SC2086
    PATH=$folder/tools called 1 $words
    says log "the command rt isn't"
    [ "$(wc -l <"$folder/log")" = 1 ] || fail "$words: more than one line"
done
PATH=$folder/tools called 0 bhtable --version
says output "kit unknown"
echo "$count calls of the commands: output and status are right"
