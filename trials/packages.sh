#!/usr/bin/env bash
# Makes the packages of bindings/release twice, which must give the same bytes, and installs each in an
# empty folder where the PATH has neither rt nor the kit: the tarball, by its path, with pkg-config and with
# CMake; the Debian package; the crate, by its path and as a vendored source; the wheel. With each, the
# programs of bindings/README, and README's, must print what their comments say; the commands are that
# page's. Each library must export what the header declares, the SBOM must have the packages' checksums, and
# a version that differs from bindings/VERSION must stop the release.
#
# Needs rt, or BUCKET_LIB_DIR with the libraries; python3 and a C compiler cc with its binutils. What needs
# c++, cargo, cmake, dpkg, lintian, pip or pkg-config is left out if that isn't installed, and a line says
# so. The exit status is 0 if all checks passed, otherwise 1.
set -u
source "$(dirname "${BASH_SOURCE[0]}")/lib/running.sh"
source "$root/trials/lib/documents.sh"
source "$root/trials/lib/packages/installing.sh"
source "$root/bindings/lib/libraries.sh"
[ -n "${BUCKET_LIB_DIR-}" ] || need_rt
page=bindings/README.md
version=$(cat "$root/bindings/VERSION")
dist=$folder/dist

# A repository without commits has no time for the files.
git -C "$root" log -1 >"$folder/log" 2>&1 || export SOURCE_DATE_EPOCH=${SOURCE_DATE_EPOCH:-1000000000}
"$root/bindings/release" "$dist" >"$folder/output" 2>"$folder/log" || fail "the packages could not be made"
grep '^left out:' "$folder/output"
"$root/bindings/release" "$folder/again" >"$folder/output" 2>"$folder/log" || fail "the packages could not be made again"
diff "$dist/SHA256SUMS" "$folder/again/SHA256SUMS" >"$folder/log" || fail "a second run gives other bytes"
(cd "$dist" && sha256sum --quiet -c SHA256SUMS) >"$folder/log" 2>&1 || fail "a checksum in SHA256SUMS is wrong"
python3 -B "$root/trials/lib/packages/sbom.py" "$dist" "bucket-$version.spdx.json" >"$folder/output" 2>&1 ||
    fail "the SBOM is wrong"
echo "$(wc -l <"$dist/SHA256SUMS") files, made twice with the same bytes"

# A version that differs stops a release, which names each place.
copy_repository "$folder/copy"
echo 9.9.9 >"$folder/copy/bindings/VERSION"
"$folder/copy/bindings/release" >"$folder/output" 2>"$folder/log" && fail "a release with a differing version succeeds"
for file in bindings/bucket.h bindings/rust/Cargo.toml CHANGELOG.md; do
    grep -qxF "bindings/release: bindings/VERSION has 9.9.9, and $file $version" "$folder/log" ||
        fail "a release doesn't report that the version in $file differs"
done

make_bare_path
bare rt version >"$folder/output" 2>&1 && fail "rt is on the PATH"
collect_programs
play_tarball
play_debian
play_crate
play_wheel
echo "$page and README: $played commands and $runs programs run"
