# For bindings/build and bindings/release to source: what bucket.h declares, and libraries of it.
#
#   need COMMAND..                      ends the script with one line, if a command isn't there
#   declared HEADER                     prints the functions that a header declares, a line each
#   exported LIBRARY                    prints the symbols that a library, shared or static, defines for others
#   link_libraries HEADER FOLDER ARCHIVE..   makes libbucket.a and libbucket.so of all members of the archives

need() {
    local command
    for command in "$@"; do
        command -v "$command" >/dev/null || {
            echo "bindings/${0##*/}: the command $command isn't on the PATH" >&2
            exit 1
        }
    done
}

# Text in braces isn't a declaration, but the braces of `extern "C"` don't count.
declared() {
    awk '
        { text = text $0 "\n" }
        END {
            while ((from = index(text, "/*")) > 0) {
                rest = substr(text, from + 2)
                text = substr(text, 1, from - 1) " " substr(rest, index(rest, "*/") + 2)
            }
            many = split(text, lines, "\n")
            text = ""
            for (i = 1; i <= many; i++) {
                if (!follows && lines[i] !~ /^[ \t]*#/) text = text " " lines[i]
                else follows = lines[i] ~ /\\$/
            }
            gsub(/[;{}]/, "&\n", text)
            many = split(text, parts, "\n")
            for (i = 1; i <= many; i++) {
                part = parts[i]
                if (!depth && part ~ /;$/ && part !~ /typedef/ && match(part, /bucket_[a-z0-9_]+ *\(/)) {
                    name = substr(part, RSTART, RLENGTH)
                    sub(/ *\($/, "", name)
                    print name
                }
                if (part ~ /{$/ && part !~ /extern +"C"/) depth++
                if (part ~ /}$/ && depth) depth--
            }
        }' "$1" | LC_ALL=C sort -u
}

exported() {
    local dynamic=()
    case $1 in *.so*) dynamic=(-D) ;; esac
    nm "${dynamic[@]}" -g --defined-only "$1" | awk 'NF == 3 { print $3 }' | LC_ALL=C sort -u
}

# Each exports what the header declares, and nothing else. The archive has one member, so that symbols that
# the members of the others share stay internal.
link_libraries() {
    local header=$1 folder=$2 parts soname
    shift 2
    parts=$(mktemp -d) || return
    soname=libbucket.so.$(sed 's/\..*//' "${BASH_SOURCE[0]%/*}/../VERSION")
    declared "$header" >"$parts/names"
    { echo '{ global:' && sed 's/$/;/' "$parts/names" && echo 'local: *; };'; } >"$parts/script"
    rm -f "$folder"/libbucket.{a,so} "$folder/$soname"
    ld -r --whole-archive "$@" -o "$parts/whole.o" &&
        objcopy --strip-debug --keep-global-symbols="$parts/names" "$parts/whole.o" "$parts/bucket.o" &&
        ar rcsD "$folder/libbucket.a" "$parts/bucket.o" &&
        cc -shared -o "$folder/libbucket.so" "$parts/bucket.o" "-Wl,-soname,$soname" "-Wl,--version-script=$parts/script" \
            -Wl,-z,relro,-z,now,-z,noexecstack,-z,defs &&
        ln -s libbucket.so "$folder/$soname" &&
        check_exported "$parts/names" "$folder"/libbucket.{a,so}
    local status=$?
    rm -rf "$parts"
    return "$status"
}

# check_exported NAMES LIBRARY..: each library must export exactly these names.
check_exported() {
    local names=$1 library
    shift
    for library in "$@"; do
        exported "$library" | diff "$names" - >&2 || {
            echo "bindings/${0##*/}: the names that bucket.h declares (<) and ${library##*/} exports (>) differ" >&2
            return 1
        }
    done
}
