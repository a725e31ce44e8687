#!/usr/bin/env bash
# Times calls of bindings/ on a million pairs, next to other containers: from C unordered_map and
# GLib's GHashTable; from C++ unordered_map, tsl::robin_map and absl::flat_hash_map; from Rust std's map,
# hashed by SipHash and by a folded multiplication; from Python dict, set and lru_cache. GHashTable and
# the last two of C++ are left out if they aren't installed. Prints the processor, its load, and the
# least time of some rounds, in nanoseconds. It asserts nothing: times depend on the machine.
#
# usage: bench/bindings.sh [ROUNDS]
#
# Needs rt and binutils, for the library. A language is left out if its compiler (c++, cargo) or headers
# (python3-dev) aren't installed.
set -u

bindings=$(dirname -- "$(readlink -f -- "${BASH_SOURCE[0]}")")/../bindings
rounds=${1:-3}
folder=$(mktemp -d) || exit 1
trap 'rm -rf "$folder"' EXIT

"$bindings/build" "$folder" || exit 1
export BUCKET_LIB_DIR=$folder BUCKET_INCLUDE=$bindings CARGO_TARGET_DIR=$folder/target
echo "$(sed -n 's/^model name[^:]*: //p' /proc/cpuinfo | head -n 1), load $(cut -d ' ' -f 1 /proc/loadavg)"

# The flags for absl's map, if pkg-config knows it.
absl=()
if pkg-config --exists absl_flat_hash_map 2>/dev/null; then
    read -ra absl <<<"-DHAS_FLAT_HASH_MAP $(pkg-config --cflags --libs absl_flat_hash_map absl_hash)"
fi

glib=()
if pkg-config --exists glib-2.0 2>/dev/null; then
    read -ra glib <<<"-DHAS_GLIB $(pkg-config --cflags --libs glib-2.0)"
fi

if command -v c++ >/dev/null; then
    c++ -std=c++11 -O2 "-I$bindings" "$bindings/../bench/unordered_map.cpp" "$folder/libbucket.a" "${glib[@]}" -o "$folder/c" ||
        exit 1
    "$folder/c" "$rounds" || exit 1
    c++ -std=c++17 -O2 "-I$bindings" "$bindings/cpp/times.cpp" "$folder/libbucket.a" "${absl[@]}" -o "$folder/c++" || exit 1
    "$folder/c++" "$rounds" || exit 1
fi
if command -v cargo >/dev/null; then
    (cd "$bindings/rust" && cargo run --release --offline --quiet --example times "$rounds") || exit 1
    rm -f "$bindings/rust/Cargo.lock"
fi
if python3 "$bindings/python/build_wheel.py" --package "$folder/package" >"$folder/log" 2>&1; then
    PYTHONPATH=$folder/package python3 "$bindings/python/times.py" "$rounds" || exit 1
fi
