# Checks whether a program or a static library is built from the present sources by the present toolchain, and unpacks
# the prebuilt programs if they are those of these sources. It is for the scripts 'apexports', 'dekarino', 'package',
# 'python/build', 'c/build' and 'test', which set root to the checkout.

# Prints the names of all programs, the crates with a main.
programs() {
    (cd "$root/crates" && for main in */src/main.rt; do printf '%s\n' "${main%%/*}"; done)
}

# of_program NAME: the functions below are then about this program.
of_program() {
    name=$1
    crate=$root/crates/$name
    program=$crate/out/$name
    kind=-x
    record=$crate/out/built_from
}
of_program apexports

# of_library NAME: the functions below are then about this static library.
of_library() {
    of_program "$1"
    program=$crate/out/lib$name.a
    kind=-f
}

# of_each COMMAND..: runs the command for each program and then for the static library, up to the first failure.
of_each() {
    for each in $(programs); do
        of_program "$each" && "$@" || return
    done
    of_library apex_c && "$@"
}

# Sets toolchain to the folder of the command rt, and puts that first into the search path. If there is none, toolchain is
# what the last build recorded about its toolchain.
find_toolchain() {
    for rt in "$(command -v rt)" "${RATTLE_KIT:-/opt/rattle}/bin/rt"; do
        toolchain=$(readlink -f -- "$rt" 2> /dev/null)
        toolchain=${toolchain%/bin/rt}
        [ -f "$toolchain/WHAT" ] && PATH=$toolchain/bin:$PATH && return
    done
    toolchain=$record
    return 1
}

# archive [FILE..]: all sources, and the files, as one stream of bytes, in the same order in every locale.
archive() (
    export LC_ALL=C
    cd "$root" && TAR_OPTIONS='' exec tar -c --format=gnu --sort=name --mtime=@0 --owner=:0 --group=:0 --mode=0 \
        crates.txt crates/*/src crates/*/specs crates/*/proofs "$@"
)

# archive_built [FILE]: everything that the toolchain itself compares before it builds, and the file.
archive_built() {
    archive "$@" -C "$toolchain" WHAT
}

# Whether the program is the one of the last record, and everything from which it was built is unchanged.
is_built() {
    test "$kind" "$program" && [ -f "$record/archive" ] &&
        archive_built "${program#"$root/"}" 2> /dev/null | cmp -s - "$record/archive"
}

# record_build FILE: records that the program was built from the archive in the file, if the sources are still the same,
# and the line of the toolchain.
record_build() {
    mkdir -p "$record" && archive_built "${program#"$root/"}" > "$record/archive.$$" &&
        archive_built | cmp -s - "$1" && cp "$toolchain/WHAT" "$record/WHAT.$$" &&
        "$toolchain/bin/rt" version > "$record/toolchain" && mv -f "$record/WHAT.$$" "$record/WHAT" &&
        mv -f "$record/archive.$$" "$record/archive" && return
    rm -f "$record/WHAT.$$" "$record/archive.$$"
    return 1
}

# Prints the names of the programs and of the static library that are not built from these sources.
not_built() {
    of_each print_not_built
}

print_not_built() {
    is_built || printf ' %s' "${program##*/}"
}

# The prebuilt programs, and the shared object of the C interface: their archive, and the text that names their sources,
# the toolchain that proved them, and the SHA-256 of each.
packed=prebuilt/x86_64-linux.tar.gz
origin=prebuilt/BUILT_FROM

# Prints the SHA-256 and the name of each source, in the same order in every locale.
list_sources() (
    export LC_ALL=C
    cd "$root" && find crates.txt crates/*/src crates/*/specs crates/*/proofs ! -type d | sort | xargs sha256sum
)

# origin_of WORD: prints what the text says about the sources or about the toolchain.
origin_of() {
    sed -n "s/^$1 //p" "$root/$origin"
}

# Prints the folders in which the prebuilt programs may be unpacked, the first choice first.
places() {
    printf '%s\n' "$root/out/prebuilt"
    [ -z "${XDG_CACHE_HOME:-${HOME:-}}" ] ||
        printf '%s\n' "${XDG_CACHE_HOME:-$HOME/.cache}/dekarino/$(origin_of sources)"
    shared_place
}

# Prints the last of these folders. It is below one to which everyone can write.
shared_place() {
    [ -d "${TMPDIR:-}" ] || TMPDIR=/tmp
    printf '%s\n' "$TMPDIR/dekarino-$(id -u)/$(origin_of sources)"
}

# is_own FOLDER: whether this user made the folder, if others could have.
is_own() {
    [ "$1" = "$(shared_place)" ] || return 0
    [ -O "${1%/*}" ] && [ ! -L "${1%/*}" ] && [ "$(stat -c %a "${1%/*}")" = 700 ]
}

archive_unpacked() {
    archive "$origin" -C "$place" apexports dekarino libdekarino.so
}

# Whether the prebuilt programs of exactly these sources are unpacked, unchanged since they were compared. Sets place to
# their folder.
is_unpacked() {
    [ -f "$root/$origin" ] || return
    while read -r place; do
        [ -f "$place/archive" ] && is_own "$place" &&
            archive_unpacked 2> /dev/null | cmp -s - "$place/archive" && return
    done << END
$(places)
END
    return 1
}

# Makes the first folder that can be made, and a folder for this run in it. Sets place and new to these.
find_place() {
    while read -r place; do
        (umask 077 && mkdir -p "${place%/*}") 2> /dev/null && mkdir -p "$place" 2> /dev/null && is_own "$place" &&
            new=$(mktemp -d "$place/unpacking.XXXXXX" 2> /dev/null) && return
    done << END
$(places)
END
    return 1
}

# first_other_source LIST: prints the first file in which the sources differ from those of the list.
first_other_source() {
    { printf '%s\n' "$1" && list_sources; } 2> /dev/null | LC_ALL=C sort | uniq -u | sed 's/^[^ ]*  *//' |
        LC_ALL=C sort | head -n 1
}

# Unpacks into the folder new, compares, and moves the files into place. If that fails, why has the reason.
unpack_into_place() {
    why="and $packed is damaged: what it holds is not what $origin names"
    gzip -dc "$root/$packed" > "$new/packed" 2> /dev/null && grep '^[0-9a-f]\{64\}  ' "$root/$origin" > "$new/sums" &&
        (cd "$new" && tar -x -f packed && sha256sum -c sums) > /dev/null 2>&1 || return
    why="and the prebuilt one cannot be written to $place: see that its disk has room"
    for each in apexports dekarino libdekarino.so; do
        chmod 755 "$new/$each" && mv -f "$new/$each" "$place/$each" || return
    done
    archive_unpacked > "$new/archive" && mv -f "$new/archive" "$place/archive"
}

# Unpacks the prebuilt programs if they are those of these sources. If not, why has the reason, if there are prebuilt
# programs.
unpack() {
    why=
    [ -f "$root/$origin" ] && [ -f "$root/$packed" ] || return
    if [ "$(list_sources 2> /dev/null | sha256sum)" != "$(origin_of sources)  -" ]; then
        why="and $packed is damaged: it cannot be unpacked"
        list=$(gzip -dc "$root/$packed" 2> /dev/null | tar -xO -f - sources 2> /dev/null) || return
        why="and the prebuilt one is that of other sources, which differ first in $(first_other_source "$list")"
        return 1
    fi
    why="and the prebuilt one cannot be unpacked, since no folder for it can be written:"
    why="$why $(places | paste -s -d ' ' -)"
    new=
    trap 'rm -rf "$new"; exit 125' HUP INT TERM
    find_place && unpack_into_place
    unpacked=$?
    rm -rf "$new"
    trap - HUP INT TERM
    return "$unpacked"
}

# Sets program to the one that is built from these sources, or else to the prebuilt one.
is_ready() {
    is_built && return
    is_unpacked || unpack || return
    program=$place/$name
}
