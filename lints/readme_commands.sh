#!/usr/bin/env bash
# Runs the shell commands of README and of docs/bhtable.md in an unbuilt copy of the repository: the
# replies of `./bhtable` must be those that README shows, and README's example must print what its
# comments say. README's set and cache are run too, and its clauses must be those of the function
# that it names. This also passes if the example's crate was added to the repository, as README
# describes.
#
# Needs rt on the PATH. The exit status is 0 if every command was right, otherwise 1.
set -u
source "$(dirname "${BASH_SOURCE[0]}")/../trials/lib/running.sh"
source "$root/trials/lib/documents.sh"
need_rt
copy=$folder/copy
copy_repository "$copy"
# The example's crate, if README was followed here.
rm -rf "$copy/crates/ages"
sed -i '/^ages:/d' "$copy/crates.txt"

# printed WHAT: standard input must equal what the last command wrote.
printed() {
    diff - "$folder/output" >"$folder/log" || fail "$1: shown (<) and printed (>) differ"
}

# Each line of the clauses must be in the file that README links before them.
file=$(sed -n 's/^\[`add(.*)`\](\([^)]*\)).*$/\1/p' "$root/README.md")
[ -f "$root/$file" ] || fail "README names no file for its clauses"
block README.md rattle 1 >"$folder/clauses"
[ -s "$folder/clauses" ] || fail "README shows no clause"
while IFS= read -r line; do
    grep -qxF -- "$line" "$root/$file" || fail "$file has no line '$line'"
done <"$folder/clauses"

# Not run: `rt run` and `--prove` would prove the crates below again in the copy, for about 15
# minutes, while `./check` proves and runs such programs, and trials/bhtable_command.sh calls
# `--prove`; and `./check --quick` runs this lint.
unplayed='./check --quick
rt run'
check_unplayed README.md
[ "$(blocks README.md)" = 2 ] || fail "README doesn't have two blocks of commands"
play README.md 1 "$copy"
sed -n 's/^- \[`bhtable`\].* here \(.*\), after .*$/\1/p' "$root/README.md" |
    grep -o '`[^`]*`' | tr -d '`' >"$folder/shown"
[ "$(wc -l <"$folder/shown")" = 5 ] || fail "README doesn't show five replies"
printed "README's lines for ./bhtable" <"$folder/shown"
play README.md 2 "$copy"
block README.md sh 2 | sed -n 's/^rt try.*: prints //p' | grep -o "'[^']*'" | tr -d "'" >"$folder/expected"
[ -s "$folder/expected" ] || fail "README's example doesn't say what it prints"
printed "README's example" <"$folder/expected"

# The set and the cache, in the main of the example's crate.
block README.md rust 1 >"$folder/main"
{
    printf '%s\n' '#![tactic(auto)]' 'use std::io;' 'fn main(rt: HostRuntime) -> io::Result<()> {'
    cat "$folder/main"
    printf '%s\n' 'Ok(())' '}'
} >"$copy/crates/ages/src/main.rt"
(cd "$copy/crates/ages" && rt try) >"$folder/output" 2>"$folder/log" </dev/null ||
    fail "README's set and cache failed"
sed -n 's|^.*// prints \(.*\)$|\1|p' "$folder/main" >"$folder/expected"
[ -s "$folder/expected" ] || fail "README's set and cache don't say what they print"
printed "README's set and cache" <"$folder/expected"

# The lines of FILE, and their replies.
page=docs/bhtable.md
unplayed='./bhtable --prove < FILE'
check_unplayed "$page"
printf '%s\n' "new map id 0 64" "put 1 0" "put 1 5" "peek 1" "remove 1" >"$copy/FILE"
for ((number = 1; number <= $(blocks "$page"); number++)); do
    play "$page" "$number" "$copy"
    if grep -qxF './bhtable < FILE' "$folder/commands"; then
        printf '%s\n' ok ok present "value 0" "pair 1 0" | printed "./bhtable < FILE"
    fi
done
echo "README and $page: $played commands run"
