#!/usr/bin/env bash
# Links the proved library of bindings/ to programs in C, C++, Rust and Python, and runs them: each call
# with each code; each allocation failing in turn, and the pairs that are left; under valgrind, that only
# allocated memory is read or written, and all of it is freed. The header must declare what is exported,
# compile without a warning, let no null pointer through, reject a 32-bit machine, and warn about a
# dropped code. Then it runs the tests of bucket.hpp, of the Rust crate and of the Python module, which are
# `cpp/test`, `rust/test` and `python/test` in bindings/; their heads say what they test.
#
# Needs rt, binutils, python3 and a C compiler cc on the PATH. A language whose compiler (c++, cargo) isn't
# installed is left out, and so is valgrind, and a line says so. The exit status is 0 if all tests passed,
# otherwise 1.
set -u
source "$(dirname "${BASH_SOURCE[0]}")/lib/running.sh"
sources=$root/trials/lib/bindings
bindings=$root/bindings
source "$bindings/lib/libraries.sh"
need_rt

"$bindings/build" "$folder" >"$folder/log" 2>&1 || fail "the library could not be built"

# run COMMAND..: runs a program. It must end with status 0; its output is printed.
run() {
    "$@" >"$folder/output" 2>"$folder/log" || fail "$1 ended with status $?"
    cat "$folder/output"
}

# is_clean COMPILER STANDARD LANGUAGE OPTION..: the header compiles under a standard without a warning.
is_clean() {
    printf '#include "bucket.h"\nextern bucket_handle ages;\nbucket_handle ages = BUCKET_HANDLE;\n' >"$folder/header.c"
    "$1" "-std=$2" -Wall -Wextra -Wpedantic -Werror "${@:4}" "-I$bindings" -fsyntax-only -x "$3" "$folder/header.c" \
        2>"$folder/log" || fail "the header doesn't compile with $2"
}

# The calls that don't return a code.
no_code='bucket_free\|bucket_len\|bucket_capacity\|bucket_version'

# warns COMPILER STANDARD LANGUAGE: dropping a code causes a warning, for each call that returns one. Left
# out if the compiler has no such warning.
warns() {
    echo '__attribute__((warn_unused_result)) int call(void); void drop(void); void drop(void) { call(); }' >"$folder/known.c"
    if "$1" "-std=$2" -x "$3" -c "$folder/known.c" -o "$folder/dropped" -Werror=unused-result 2>"$folder/log"; then
        echo "left out: dropped codes with $2, since $1 doesn't warn about any"
        return
    fi
    "$1" "-std=$2" "-I$bindings" -x "$3" -c "$sources/dropped.c" -o "$folder/dropped" -Werror=unused-result 2>"$folder/log" &&
        fail "a dropped code compiles with $2"
    "$1" "-std=$2" "-I$bindings" -x "$3" -c "$sources/dropped.c" -o "$folder/dropped" 2>"$folder/log"
    [ "$(grep -c 'unused-result\]' "$folder/log")" = "$(grep -vcx "$no_code" "$folder/named")" ] ||
        fail "$2 doesn't warn about each dropped code"
}

# The header declares exactly what the library exports, besides its own guards and readings.
nm -g --defined-only "$folder/libbucket.so" | sed -n 's/^.* T \(bucket_[a-z_]*\)$/\1/p' | LC_ALL=C sort >"$folder/exported"
grep -o '\bbucket_[a-z_]*(' "$bindings/bucket.h" | tr -d '(' | grep -v '^bucket_guarded_' | sort -u >"$folder/named"
declared "$bindings/bucket.h" >"$folder/declared"
diff "$folder/exported" "$folder/declared" >"$folder/log" || fail "exported (<) and declared (>) differ"
echo "$(wc -l <"$folder/declared") calls exported and declared"

for standard in c99 c11 c17; do
    is_clean cc "$standard" c
done
warns cc c11 c
if echo '#include <stdint.h>' | cc -m32 -ffreestanding -fsyntax-only -x c - 2>"$folder/log"; then
    echo '#include "bucket.h"' | cc -m32 -ffreestanding "-I$bindings" -fsyntax-only -x c - 2>"$folder/log"
    grep -q 'error.*64.bits' "$folder/log" || fail "the header doesn't reject a 32-bit machine"
else
    echo "left out: a 32-bit machine, since cc doesn't compile for one"
fi
echo "the header compiles without a warning, and a dropped code causes one"

# The programs below exit with 1 if a null pointer reaches the library.
strict=(-O2 -Wall -Wextra -Werror "-I$bindings")
mapfile -t watches < <(sed -n 's/^WATCH(\([a-z_]*\),.*/-Wl,--wrap=\1/p' "$sources/no_null.c")
cc -std=c11 "${strict[@]}" -c "$sources/no_null.c" -o "$folder/no_null.o" 2>"$folder/log" || fail "no_null.c doesn't compile"
watched=("$folder/no_null.o" "$folder/libbucket.a" "${watches[@]}")
cc -std=c11 "${strict[@]}" "$sources/calls.c" "${watched[@]}" -o "$folder/calls" 2>"$folder/log" || fail "a C program doesn't build"
run "$folder/calls"
cc -std=c11 "${strict[@]}" "$sources/more_calls.c" "${watched[@]}" -o "$folder/more_calls" 2>"$folder/log" || fail "a C program doesn't build"
run "$folder/more_calls"
cc -std=c11 "${strict[@]}" "$sources/reading.c" "${watched[@]}" -o "$folder/reading" 2>"$folder/log" || fail "a C program doesn't build"
run "$folder/reading"
wraps=-Wl,--wrap=malloc,--wrap=realloc,--wrap=free
cc -std=c11 "${strict[@]}" "$sources/refused.c" "$folder/libbucket.a" "$wraps" -o "$folder/refused" 2>"$folder/log" ||
    fail "a C program doesn't build"
run "$folder/refused"

if is_there c++ "C++"; then
    is_clean c++ c++98 c++
    for standard in c++11 c++17; do
        is_clean c++ "$standard" c++ -Wzero-as-null-pointer-constant
    done
    warns c++ c++11 c++
    warns c++ c++17 c++
    c++ -std=c++11 "${strict[@]}" -x c++ "$sources/calls.c" -x none "${watched[@]}" -o "$folder/calls++" \
        2>"$folder/log" || fail "a C++ program doesn't build"
    run "$folder/calls++"
    c++ -std=c++11 "${strict[@]}" -x c++ "$sources/more_calls.c" -x none "${watched[@]}" -o "$folder/more_calls++" \
        2>"$folder/log" || fail "a C++ program doesn't build"
    run "$folder/more_calls++"
    c++ -std=c++11 "${strict[@]}" -x c++ "$sources/reading.c" -x none "${watched[@]}" -o "$folder/reading++" \
        2>"$folder/log" || fail "a C++ program doesn't build"
    run "$folder/reading++"
fi

if is_there valgrind "C under valgrind"; then
    for calls in calls more_calls reading; do
        valgrind -q --error-exitcode=9 --leak-check=full "$folder/$calls" >"$folder/output" 2>"$folder/log" ||
            fail "valgrind reports an error or a leak"
    done
    echo "valgrind reports no error and no leak"
fi

# The tests of the three wrappers, each with its own command.
export BUCKET_LIB_DIR=$folder BUCKET_INCLUDE=$bindings
if is_there c++ "bucket.hpp"; then
    run "$bindings/cpp/test"
fi
if is_there cargo "Rust"; then
    CARGO_TARGET_DIR=$folder/target run "$bindings/rust/test"
fi
run "$bindings/python/test"
