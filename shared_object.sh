# Makes the files to hand out from the built ones: programs without symbols, and the libraries of the C interface. It is
# for the scripts 'package', 'prebuilt/update', 'python/build' and 'c/build', which set root and have fail. It uses only
# the toolchain's own tools, so the bytes and the C library that they need depend only on the toolchain.

# set_version: the version, which is the first one in CHANGES.md, and the name of the shared object.
set_version() {
    version=$(sed -n 's/^## \([0-9][0-9.]*\)$/\1/p' "$root/CHANGES.md" | head -n 1)
    soname=libdekarino.so.${version%.*}
    [ -n "$version" ]
}

# end_by_signals: a signal ends the script by its exit, so that it cleans up then too.
end_by_signals() {
    trap 'exit 129' HUP
    trap 'exit 130' INT
    trap 'exit 143' TERM
}

# strip_to PROGRAM TO: the program without its symbols.
strip_to() {
    tools=$(mktemp -d "$2.XXXXXX") && ln -s "$toolchain/toolchain/bin/clang" "$tools/llvm-strip" &&
        "$tools/llvm-strip" -s -o "$2" "$1"
    stripped=$?
    rm -rf "$tools"
    return "$stripped"
}

# make_libraries LIBRARY FOLDER: all objects that a program in C must link, in one archive, and the same as a shared
# object that exports only the functions of apex_ports.h.
make_libraries() {
    tools=$toolchain/toolchain
    {
        echo '{ global:'
        sed -n 's/^[a-z].*[ *]\(apex_[a-z0-9_]*\)(.*/\1;/p' "$root/c/apex_ports.h"
        echo 'local: *; };'
    } > "$2/shown"
    "$tools/bin/llvm-ar" qcsDL "$2/libdekarino.a" "$1" "$toolchain/c/liblibc_c.a" &&
        "$tools/bin/ld.lld" -shared -s -z defs -z now --build-id=none -soname "$soname" --version-script "$2/shown" \
            --whole-archive "$2/libdekarino.a" --no-whole-archive "$tools/lib/libc.so.6" -o "$2/$soname"
}

# provide_shared_object FOLDER: leaves libdekarino.so in the folder. It is made from the static library if that is built
# from the present sources; otherwise it is the prebuilt one if that is of these sources; otherwise it is made from the
# library that is proved and built now.
provide_shared_object() {
    set_version || fail "CHANGES.md has no line '## VERSION'"
    mkdir -p "$1" && work=$(mktemp -d "$1/building.XXXXXX") || fail "$1 cannot be written"
    trap 'rm -rf "$work"' EXIT
    end_by_signals
    of_library apex_c
    why=
    if find_toolchain && is_built; then
        make_libraries "$program" "$work"
    elif is_unpacked || unpack; then
        end_by_signals # (unpacking has traps of its own)
        cp "$place/libdekarino.so" "$work/$soname"
    elif [ "$toolchain" = "$record" ]; then
        fail "the library is not built from these sources${why:+, $why}, and there is no command rt to build it:" \
            "put the toolchain's bin folder into PATH, or name the toolchain in RATTLE_KIT"
    else
        (cd "$crate" && rt lib >&2) && make_libraries "$program" "$work"
    fi && mv -f "$work/$soname" "$1/libdekarino.so" ||
        fail "the shared object could not be made: fix what is reported above, and run this again"
}
