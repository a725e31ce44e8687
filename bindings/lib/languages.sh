# For bindings/release to source.
#
#   make_crate    makes the crate of bindings/rust, which includes the static library
#   make_wheel    makes the wheel of bindings/python

make_crate() {
    command -v cargo >/dev/null || {
        leave_out "the crate" "cargo isn't installed"
        return
    }
    local stage=$parts/crate
    mkdir "$stage"
    (cd "$here/rust" && tar -c --exclude=target --exclude=Cargo.lock .) | tar -x -C "$stage"
    install -m 644 -D -t "$stage/lib/x86_64-unknown-linux-gnu" "$libraries/libbucket.a"
    cp "$here/bucket.h" "$root/LICENSE" "$root/NOTICE" "$stage"
    [ -f "$stage/README.md" ] || cp "$here/README.md" "$stage"
    # cargo packs the executable bits. The stage is outside the checkout, so it finds no other crate above.
    find "$stage" -type f -exec chmod 644 {} +
    (
        cd "$stage"
        unset BUCKET_LIB_DIR
        export CARGO_TARGET_DIR=$parts/target
        run "the crate" cargo package --offline --allow-dirty --quiet
    )
    cp "$parts/target/package/bucket-$version.crate" "$dist"
}

# The module must contain no path of this machine.
make_wheel() {
    command -v python3 >/dev/null || {
        leave_out "the wheel" "python3 isn't installed"
        return
    }
    [ -f "$(python3 -c 'import sysconfig; print(sysconfig.get_paths()["include"])')/Python.h" ] || {
        leave_out "the wheel" "python3 has no headers"
        return
    }
    BUCKET_LIB_DIR=$libraries BUCKET_INCLUDE=$here CFLAGS=-g0 LDFLAGS=-s \
        run "the wheel" python3 -B "$here/python/build_wheel.py" "$dist"
}
