# For trials and lints to source, after running.sh: runs the shell commands of a document in a copy of
# the repository, as a reader would paste them.
#
#   block DOCUMENT WORD NUMBER    prints the text of the NUMBERth block that begins with ```WORD
#   blocks DOCUMENT [WORD]        prints how many blocks begin so; the default is ```sh
#   play DOCUMENT NUMBER FOLDER   runs the lines of a ```sh block in one shell, in FOLDER: each must end
#                                 with status 0. The output goes to $folder/output
#   check_unplayed DOCUMENT       each line of $unplayed must be in the document
#   play_programs DOCUMENT COPY   runs the ```rust blocks, each a program, in turn and without proof, as
#                                 one crate in a copy of the repository. Their output must be what
#                                 their comments `// prints ..` say
#   check_excerpts DOCUMENT WORD FILES    each ```WORD block must be a part of one of the files
#
# $unplayed has the commands that aren't run, one per line.

block() {
    awk -v head="\`\`\`$2" -v wanted="$3" '
        $0 == head { inside = ++found == wanted; next }
        /^```/ { inside = 0 }
        inside' "$root/$1"
}

blocks() {
    grep -c "^\`\`\`${2:-sh}\$" "$root/$1"
}

# commands DOCUMENT NUMBER: prints the commands of a block, without comments.
commands() {
    block "$1" sh "$2" | sed 's/  *# .*$//'
}

play() {
    commands "$1" "$2" | grep -vxF -- "$unplayed" >"$folder/commands"
    [ -s "$folder/commands" ] || return
    (cd "$3" && bash -e -o pipefail "$folder/commands") >"$folder/output" 2>"$folder/log" </dev/null ||
        fail "$1, block $2: a command failed"
    played=$((${played:-0} + $(wc -l <"$folder/commands")))
}

check_unplayed() {
    local number line
    for ((number = 1; number <= $(blocks "$1"); number++)); do
        commands "$1" "$number"
    done >"$folder/all"
    while read -r line; do
        grep -qxF -- "$line" "$folder/all" || fail "$1 has no command '$line'"
    done <<<"$unplayed"
}

play_programs() {
    local number crate=$2/crates/pages
    programs=$(blocks "$1" rust)
    rm -rf "$crate"
    mkdir -p "$crate/src"
    : >"$folder/expected"
    grep -q '^pages:' "$2/crates.txt" || echo 'pages: collections bucket_table bucket_slots' >>"$2/crates.txt"
    {
        echo '#![tactic(auto)]'
        for ((number = 1; number <= programs; number++)); do
            echo "mod program_$number;"
        done
        printf '%s\n' 'use std::io;' 'fn main(rt: HostRuntime) -> io::Result<()> {'
        for ((number = 1; number <= programs; number++)); do
            block "$1" rust "$number" | sed '/^#!\[tactic(auto)\]$/d; s/^fn main(/pub fn main(/' \
                >"$crate/src/program_$number.rt"
            sed -n 's|^.*// prints ||p' "$crate/src/program_$number.rt" >>"$folder/expected"
            echo "    program_$number::main(rt)?;"
        done
        printf '%s\n' '    Ok(())' '}'
    } >"$crate/src/main.rt"
    [ "$programs" != 0 ] && [ -s "$folder/expected" ] || fail "$1 has no program that prints"
    (cd "$crate" && rt try) >"$folder/output" 2>"$folder/log" </dev/null || fail "$1: a program failed"
    diff "$folder/expected" "$folder/output" >"$folder/log" || fail "$1: the comments (<) and the output (>) differ"
}

check_excerpts() {
    local number text file document=$1 word=$2
    shift 2
    for ((number = 1; number <= $(blocks "$document" "$word"); number++)); do
        text=$(block "$document" "$word" "$number")
        for file in "$@"; do
            [[ $(cat "$file") == *"$text"* ]] && continue 2
        done
        fail "$document: block $number of $word isn't in the sources"
    done
}
