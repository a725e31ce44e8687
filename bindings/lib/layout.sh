# For bindings/release to source: the layout of the headers and libraries below a prefix.
#
#   lay_out PREFIX LIBDIR    LIBDIR is the folder of the libraries below the prefix

lay_out() {
    local prefix=$1 libdir=$1/$2 up
    # The relative path from LIBDIR to the prefix.
    up=$(sed 's|[^/][^/]*|..|g' <<<"$2")
    install -m 644 -D -t "$prefix/include" "$here"/bucket.{h,hpp}
    install -m 644 -D -t "$libdir" "$libraries/libbucket.a"
    install -m 644 "$libraries/libbucket.so" "$libdir/libbucket.so.$version"
    ln -s "libbucket.so.$version" "$libdir/libbucket.so.${version%%.*}"
    ln -s "libbucket.so.${version%%.*}" "$libdir/libbucket.so"
    mkdir -p "$libdir/pkgconfig" "$libdir/cmake/bucket"
    write_pc "../$up" "$2" >"$libdir/pkgconfig/bucket.pc"
    write_cmake "$up" >"$libdir/cmake/bucket/bucket-config.cmake"
    write_cmake_version >"$libdir/cmake/bucket/bucket-config-version.cmake"
}

write_pc() {
    cat <<END
prefix=\${pcfiledir}/$1
includedir=\${prefix}/include
libdir=\${prefix}/$2

Name: bucket
Description: Proved hash maps, sets and caches
Version: $version
Cflags: -I\${includedir}
Libs: -L\${libdir} -lbucket
END
}

write_cmake() {
    cat <<END
# The targets bucket::bucket, the shared library, and bucket::bucket_static.
get_filename_component(_bucket_lib "\${CMAKE_CURRENT_LIST_DIR}/../.." REALPATH)
get_filename_component(_bucket_include "\${_bucket_lib}/$1/include" REALPATH)
if(NOT TARGET bucket::bucket)
    add_library(bucket::bucket SHARED IMPORTED)
    set_target_properties(bucket::bucket PROPERTIES
        IMPORTED_LOCATION "\${_bucket_lib}/libbucket.so.$version"
        IMPORTED_SONAME libbucket.so.${version%%.*}
        INTERFACE_INCLUDE_DIRECTORIES "\${_bucket_include}")
    add_library(bucket::bucket_static STATIC IMPORTED)
    set_target_properties(bucket::bucket_static PROPERTIES
        IMPORTED_LOCATION "\${_bucket_lib}/libbucket.a"
        INTERFACE_INCLUDE_DIRECTORIES "\${_bucket_include}")
endif()
unset(_bucket_lib)
unset(_bucket_include)
END
}

# Before 1.0 each minor version is a new interface.
write_cmake_version() {
    local series=${version%.*}
    cat <<END
set(PACKAGE_VERSION "$version")
if(PACKAGE_FIND_VERSION VERSION_GREATER PACKAGE_VERSION OR
        (PACKAGE_FIND_VERSION AND NOT "\${PACKAGE_FIND_VERSION_MAJOR}.\${PACKAGE_FIND_VERSION_MINOR}" STREQUAL "$series"))
    set(PACKAGE_VERSION_COMPATIBLE FALSE)
else()
    set(PACKAGE_VERSION_COMPATIBLE TRUE)
    if(PACKAGE_FIND_VERSION VERSION_EQUAL PACKAGE_VERSION)
        set(PACKAGE_VERSION_EXACT TRUE)
    endif()
endif()
if(CMAKE_SIZEOF_VOID_P AND NOT CMAKE_SIZEOF_VOID_P EQUAL 8)
    set(PACKAGE_VERSION_UNSUITABLE TRUE)
endif()
END
}
