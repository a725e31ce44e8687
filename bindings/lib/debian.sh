# For bindings/release to source.
#
#   make_debian    makes the Debian package libbucket-dev of the headers and both libraries

make_debian() {
    command -v dpkg-deb >/dev/null || {
        leave_out "the Debian package" "dpkg-deb isn't installed"
        return
    }
    [ -n "$(maintainer)" ] || {
        leave_out "the Debian package" "neither DEBFULLNAME and DEBEMAIL nor a commit names a maintainer"
        return
    }
    local tree=$parts/debian libdir=lib/x86_64-linux-gnu docs
    docs=$tree/usr/share/doc/libbucket-dev
    lay_out "$tree/usr" "$libdir"
    install -m 644 -D -t "$docs" "$root/NOTICE" "$here/README.md"
    debian_copyright >"$docs/copyright"
    debian_changelog | gzip -9n >"$docs/changelog.gz"
    mkdir "$tree/DEBIAN"
    (cd "$tree" && find usr -type f | sort | xargs md5sum) >"$tree/DEBIAN/md5sums"
    echo "libbucket ${version%%.*} libbucket-dev (>= $version)" >"$tree/DEBIAN/shlibs"
    echo "activate-noawait ldconfig" >"$tree/DEBIAN/triggers"
    debian_control "$tree" >"$tree/DEBIAN/control"
    find "$tree" -exec touch -h -d "@$SOURCE_DATE_EPOCH" {} +
    run "the Debian package" dpkg-deb --root-owner-group -Zxz --build "$tree" "$dist/libbucket-dev_${version}_amd64.deb"
}

# The maintainer of the package: as Debian's tools have it, else the commit's author.
maintainer() {
    if [ -n "${DEBFULLNAME-}" ] && [ -n "${DEBEMAIL-}" ]; then
        echo "$DEBFULLNAME <$DEBEMAIL>"
    else
        git -C "$root" log -1 --format='%an <%ae>' 2>/dev/null || :
    fi
}

# The newest libc version that a symbol of the library needs.
libc() {
    objdump -T "$libraries/libbucket.so" | sed -n 's/^.*GLIBC_\([0-9.]*\).*$/\1/p' | sort -V | tail -n 1
}

debian_control() {
    cat <<END
Package: libbucket-dev
Source: bucket
Version: $version
Architecture: amd64
Multi-Arch: same
Maintainer: $(maintainer)
Installed-Size: $(find "$1/usr" -type f -printf '%s\n' | awk '{ kib += int(($1 + 1023) / 1024) } END { print kib }')
Depends: libc6 (>= $(libc))
Section: libdevel
Priority: optional
Description: proved hash maps, sets and caches for C and C++
 Maps, sets and caches from integers and byte strings, whose calls are
 proved to do what the header says, even if memory runs out.
 .
 The package has the headers for C and C++, the shared and the static library,
 and files for pkg-config and CMake.
END
}

debian_copyright() {
    cat <<END
Format: https://www.debian.org/doc/packaging-manuals/copyright-format/1.0/
Upstream-Name: bucket

Files: *
Copyright: $(date -d "@$SOURCE_DATE_EPOCH" +%Y) the authors of bucket_table
License: Apache-2.0
 On Debian systems the text of the Apache License, version 2.0, is the file
 /usr/share/common-licenses/Apache-2.0.
Comment: The file NOTICE next to this one says what the library is a port of.
END
}

# The entries of this version in CHANGELOG.
debian_changelog() {
    printf 'bucket (%s) unstable; urgency=medium\n\n' "$version"
    awk '/^## / { inside = ++found == 1; next } inside && /^- / { print }' "$root/CHANGELOG.md" |
        fold -s -w 76 | sed 's/^- /  * /; t; s/^/    /; s/ *$//'
    printf '\n -- %s  %s\n' "$(maintainer)" "$(date -R -d "@$SOURCE_DATE_EPOCH")"
}
