# For bindings/release to source: checks that each place with a version has that of bindings/VERSION.
#
#   check_versions    ends the script with a line for each place that differs

# The version in each place, a line each: the file, and the version. The wheel has the header's.
stated() {
    echo "bindings/bucket.h $(sed -n 's/^#define BUCKET_VERSION_\(MAJOR\|MINOR\|PATCH\) \([0-9]*\)$/\2/p' \
        "$here/bucket.h" | paste -sd .)"
    echo "bindings/rust/Cargo.toml $(sed -n '/^\[package\]/,/^$/s/^version = "\(.*\)"$/\1/p' "$here/rust/Cargo.toml")"
    echo "CHANGELOG.md $(sed -n 's/^## \([^ ]*\).*$/\1/p' "$root/CHANGELOG.md" | head -n 1)"
    grep -s '^version = "' "$here/python/pyproject.toml" | sed 's/^[^"]*"\(.*\)".*$/bindings\/python\/pyproject.toml \1/'
}

check_versions() {
    local file found status=0
    while read -r file found; do
        [ "$found" = "$version" ] || {
            echo "bindings/release: bindings/VERSION has $version, and $file ${found:-no version}" >&2
            status=1
        }
    done < <(stated)
    [ "$status" = 0 ] || exit 1
}
