# For packages.sh to source: installs each package in an empty folder, and runs programs with it.
#
#   make_bare_path       makes a folder of all commands on the PATH except rt and rattle
#   bare COMMAND..       runs a command with that PATH, and little else in the environment
#   collect_programs     extracts the programs of $page and README, and what their comments say
#   play_tarball, play_debian, play_crate, play_wheel    install a package, and print what they leave out
#
# $runs counts the programs that ran, and $played the commands of $page.

make_bare_path() {
    local place
    mkdir "$folder/bin"
    while read -r place; do
        ln -s "$place"/* "$folder/bin" 2>"$folder/log"
    done < <(tr : '\n' <<<"$PATH")
    rm -f "$folder"/bin/{rt,rattle,sudo}
    # This sudo installs to the folder SYSTEM, with dpkg if it runs as root.
    cat >"$folder/bin/sudo" <<'END'
#!/bin/sh
if [ "$(id -u)" = 0 ]; then
    exec dpkg "--root=$SYSTEM" --log=/dev/null --force-depends --force-bad-path -i "$3"
fi
exec dpkg-deb -x "$3" "$SYSTEM"
END
    chmod +x "$folder/bin/sudo"
}

# More variables of that environment: NAME=VALUE.
around=()

bare() {
    local name words=()
    for name in HOME CARGO_HOME RUSTUP_HOME PYENV_ROOT TMPDIR; do
        [ -z "${!name-}" ] || words+=("$name=${!name}")
    done
    env -i "PATH=$folder/bin" "${words[@]}" CARGO_NET_OFFLINE=true PIP_NO_INDEX=1 PIP_DISABLE_PIP_VERSION_CHECK=1 \
        PYTHONDONTWRITEBYTECODE=1 "${around[@]}" "$@"
}

# The page has whole programs. README's, if it has some, are the bodies of a `main`; its first two blocks of
# Rust are Rattle.
collect_programs() {
    local pair program
    runs=0
    mkdir "$folder/programs"
    for pair in c:c cpp:cpp rust:rs python:py; do
        block "$page" "${pair%:*}" 1 >"$folder/programs/page.${pair#*:}"
    done
    in_main c 1 $'#include "bucket.h"\n#include <stdio.h>\nint main(void) {' $'return 0;\n}' >"$folder/programs/readme.c"
    in_main cpp 1 $'#include "bucket.hpp"\n#include <iostream>\n#include <string>\nint main() {' '}' >"$folder/programs/readme.cpp"
    in_main rust 3 'fn main() -> Result<(), Box<dyn std::error::Error>> {' $'Ok(())\n}' >"$folder/programs/readme.rs"
    in_main python 1 '' '' >"$folder/programs/readme.py"
    find "$folder/programs" -size 0 -name 'readme.*' -delete
    for program in "$folder"/programs/*; do
        program=${program##*/}
        sed -n 's@^.*\(//\|#\) prints @@p' "$folder/programs/$program" >"$folder/expected.$program"
        [ -s "$folder/expected.$program" ] || fail "$program has no comment that says what it prints"
    done
}

# in_main LANGUAGE NUMBER BEFORE AFTER: prints a block of README between these lines, or nothing.
in_main() {
    local text
    text=$(block README.md "$1" "$2")
    [ -z "$text" ] || printf '%s\n' "$3" "$text" "$4"
}

# Prints the names of the programs with a suffix.
named() {
    (cd "$folder/programs" && ls -- *."$1")
}

# prints PROGRAM: the last lines of the output must be what the program's comments say.
prints() {
    tail -n "$(wc -l <"$folder/expected.$1")" "$folder/output" | diff "$folder/expected.$1" - >"$folder/log" ||
        fail "$1, installed from the $what: its comments (<) and its output (>) differ"
    runs=$((runs + 1))
}

# run_prints PROGRAM COMMAND..: runs the command, whose output must be what the program's comments say.
run_prints() {
    local program=$1
    shift
    bare "$@" >"$folder/output" 2>"$folder/log" </dev/null || fail "$program, installed from the $what, failed"
    prints "$program"
}

# links PROGRAM WORD..: compiles a program in C or C++ with these arguments, and runs it.
links() {
    local program=$1 compiler=(cc)
    shift
    [ "${program#*.}" = c ] || compiler=(c++ -std=c++17)
    bare "${compiler[@]}" -Wall -Wextra -Werror "$folder/programs/$program" "$@" -o "$folder/linked" \
        >"$folder/output" 2>"$folder/log" || fail "$program, installed from the $what, doesn't compile"
    run_prints "$program" "$folder/linked"
}

# Prints the programs in C, and those in C++ if there is a compiler.
linked_programs() {
    named c
    ! command -v c++ >"$folder/log" || named cpp
}

# begin WHAT PACKAGE: makes an empty folder with the package, if that was made.
begin() {
    what=$1
    place=$folder/${1// /_}
    mkdir "$place"
    cp "$dist"/$2 "$place" 2>"$folder/log" || {
        echo "left out: installing the $what, since it wasn't made"
        return 1
    }
}

# play_page NUMBER FILE: runs a block of the page in that folder, once with each program of the file's
# language as FILE.
play_page() {
    local program
    commands "$page" "$1" >"$folder/commands"
    for program in $(named "${2##*.}"); do
        cp "$folder/programs/$program" "$place/$2"
        (cd "$place" && bare bash -e -o pipefail "$folder/commands") >"$folder/output" 2>"$folder/log" </dev/null ||
            fail "$page, block $1: a command failed"
        prints "$program"
    done
    played=$((${played:-0} + $(wc -l <"$folder/commands")))
}

# exports LIBRARY..: each must export what the header declares, and nothing else.
exports() {
    local library symbols
    declared "$root/bindings/bucket.h" >"$folder/declared"
    for library in "$@"; do
        symbols=-g
        [ "${library##*.}" = a ] || symbols=-D
        nm "$symbols" --defined-only "$library" | sed -n 's/^[0-9a-f]* [A-Za-z] //p' | sort -u |
            diff "$folder/declared" - >"$folder/log" || fail "$library: declared (<) and exported (>) differ"
    done
}

is_hardened() {
    readelf -dlW "$1" >"$folder/output"
    grep -q 'BIND_NOW' "$folder/output" && grep -q 'GNU_RELRO' "$folder/output" &&
        grep -q 'GNU_STACK.* RW ' "$folder/output" && grep -q 'SONAME.*\[libbucket.so.'"${version%%.*}"'\]' "$folder/output" ||
        fail "$1 isn't hardened, or lacks its soname"
}

play_tarball() {
    begin tarball "bucket-$version-x86_64-linux.tar.gz" || return
    local prefix=$place/bucket-$version-x86_64-linux program words=()
    play_page 1 mine.c
    exports "$prefix"/lib/libbucket.{a,so}
    is_hardened "$prefix/lib/libbucket.so"
    around=("PKG_CONFIG_PATH=$prefix/lib/pkgconfig")
    if is_there pkg-config "pkg-config"; then
        bare pkg-config --exact-version="$version" bucket || fail "bucket.pc has a wrong version"
        read -ra words < <(bare pkg-config --cflags --libs bucket)
    fi
    for program in $(linked_programs); do
        links "$program" "-I$prefix/include" "$prefix/lib/libbucket.a"
        links "$program" "-I$prefix/include" "-L$prefix/lib" -lbucket "-Wl,-rpath,$prefix/lib"
        [ ${#words[@]} = 0 ] || links "$program" "${words[@]}" "-Wl,-rpath,$prefix/lib"
    done
    around=()
    play_cmake "$prefix"
}

play_cmake() {
    is_there cmake CMake && is_there make CMake && is_there c++ CMake || return
    local program
    what="tarball and CMake"
    cp "$root/trials/lib/packages/CMakeLists.txt" "$place"
    cp "$folder/programs/page.c" "$place/mine.c"
    cp "$folder/programs/page.cpp" "$place/mine.cpp"
    bare cmake -S "$place" -B "$place/made" "-DVERSION=$version" "-DCMAKE_PREFIX_PATH=$1" \
        >"$folder/output" 2>"$folder/log" || fail "CMake doesn't find bucket"
    bare cmake --build "$place/made" >"$folder/output" 2>"$folder/log" || fail "CMake can't build the programs"
    for program in c c_static cpp cpp_static; do
        run_prints "page.${program%_static}" "$place/made/$program"
    done
}

play_debian() {
    begin "Debian package" "libbucket-dev_${version}_amd64.deb" || return
    local package=$place/libbucket-dev_${version}_amd64.deb system=$place/system libdir program
    mkdir -p "$system"/var/lib/dpkg/{info,updates}
    touch "$system/var/lib/dpkg/status"
    libdir=$system/usr/lib/x86_64-linux-gnu
    around=("SYSTEM=$system" "CPATH=$system/usr/include" "LIBRARY_PATH=$libdir" "LD_LIBRARY_PATH=$libdir")
    if is_there c++ "C++ of the Debian package"; then
        play_page 2 mine.cpp
    fi
    dpkg-deb -x "$package" "$system" || fail "the Debian package can't be unpacked"
    exports "$libdir"/libbucket.{a,so}
    for program in $(linked_programs); do
        links "$program" -lbucket
        links "$program" "$libdir/libbucket.a"
    done
    around=()
    if [ "$(id -u)" != 0 ]; then
        echo "left out: dpkg -i, since it needs root"
    fi
    if is_there lintian lintian; then
        bare lintian --fail-on error "$package" >"$folder/output" 2>"$folder/log" || fail "lintian reports an error"
    fi
}

play_crate() {
    begin crate "bucket-$version.crate" || return
    local other=$place/other program package
    bare cargo init --quiet --vcs none --name mine "$place/mine" 2>"$folder/log" || fail "cargo init failed"
    play_page 3 mine/src/main.rs
    what="vendored crate"
    package=$other/vendor/bucket-$version
    mkdir -p "$other"/{src,vendor,.cargo}
    tar -xzf "$place/bucket-$version.crate" -C "$other/vendor"
    exports "$package/lib/x86_64-unknown-linux-gnu/libbucket.a"
    printf '{"files":{},"package":"%s"}' "$(sha256sum <"$place/bucket-$version.crate" | cut -d ' ' -f 1)" \
        >"$package/.cargo-checksum.json"
    printf '%s\n' '[package]' 'name = "other"' 'version = "1.0.0"' 'edition = "2021"' '[dependencies]' \
        "bucket = \"${version%.*}\"" >"$other/Cargo.toml"
    printf '%s\n' '[source.crates-io]' 'replace-with = "vendored"' '[source.vendored]' 'directory = "vendor"' \
        >"$other/.cargo/config.toml"
    for program in $(named rs); do
        cp "$folder/programs/$program" "$other/src/main.rs"
        (cd "$other" && bare cargo build --offline --quiet) >"$folder/output" 2>"$folder/log" || fail "$program doesn't build"
        run_prints "$program" "$other/target/debug/other"
    done
}

play_wheel() {
    begin wheel "bucket-$version-*.whl" || return
    local program
    if is_there pip pip; then
        around=("PIP_TARGET=$place/site" "PYTHONPATH=$place/site")
        play_page 4 mine.py
    fi
    what="unpacked wheel"
    python3 -m zipfile -e "$place"/bucket-*.whl "$place/unpacked"
    around=("PYTHONPATH=$place/unpacked")
    for program in $(named py); do
        run_prints "$program" python3 "$folder/programs/$program"
    done
    around=()
}
