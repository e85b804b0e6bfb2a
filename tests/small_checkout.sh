# A small checkout with a stand-in for the toolchain, and what the tests of the script 'apexports' ask of its runs. The
# test sets root to its own checkout, and test to its own name.
# shellcheck shell=bash disable=SC2015
work=$(mktemp -d) || exit 3
trap 'chmod -R u+w "$work"; rm -rf "$work"' EXIT
chmod 755 "$work"
failures=0
# Python is begun often here, so it is begun without what a machine adds to it.
python=$(python3 -c 'import sys; print(sys.executable)')
PATH=$work/python:$PATH

fail() {
    failures=$((failures + 1))
    echo "$test: FAILED: $*"
}

# make_checkout: a new small checkout and a new toolchain, with nothing built.
make_checkout() {
    chmod -R u+w "$work"
    rm -rf "${work:?}"/*
    kit=$work/kit checkout="$work/a checkout"
    crates=$checkout/crates crate=$checkout/crates/apexports
    mkdir -p "$work/python" "$kit/bin" "$crate/specs" "$crate/proofs" "$work/elsewhere" "$checkout/gate"
    # (a reader of no rights may not run the first)
    printf '#!/bin/sh\nfor it in "%s" /usr/bin/python3; do [ ! -x "$it" ] || exec "$it" -S "$@"; done\n' "$python" \
        > "$work/python/python3"
    chmod +x "$work/python/python3"
    cp "$root/apexports" "$root/dekarino" "$root/built_from.sh" "$checkout"
    cp "$root"/gate/*.py "$checkout/gate"
    printf '%s\n' 'apexports:' 'dekarino:' > "$checkout/crates.txt"
    mkdir -p "$crate/src" "$crates/dekarino/src"
    echo one > "$crate/src/main.rt"
    echo explained > "$crates/dekarino/src/main.rt"
    echo lemma > "$crate/proofs/Lemma.antt"
    echo 'kit 1' > "$kit/WHAT"
    sed -n 's/^WANTED = "\(.*\)"$/\1/p' "$root/gate/toolchain.py" > "$kit/version"
    cp "$root/tests/stand_in_rt" "$kit/bin/rt"
}

# make_libraries: a small checkout whose program uses three libraries, of which two can be proved side by side.
make_libraries() {
    make_checkout
    printf '%s\n' 'low:' 'left: low arrayvec' 'right: low' 'apexports: left right' 'dekarino: left' \
        > "$checkout/crates.txt"
    for library in low left right; do
        mkdir -p "$crates/$library/src"
        echo "$library" > "$crates/$library/src/lib.rt"
    done
}

# run WORD..: runs the words in another folder with the small toolchain. Both outputs and the status stay.
run() {
    (cd "$work/elsewhere" && PATH=$kit/bin:$PATH timeout 60 "$@") > "$work/out" 2> "$work/err"
    status=$?
}

builds() { wc -l < "$kit/builds"; }

# is_run CASE TEXT BUILDS: the last run was one of the program built from TEXT, after BUILDS builds.
is_run() {
    [ "$status" = 0 ] && [ "$(cat "$work/out")" = "$2 in $work/elsewhere: say 1  2" ] && [ "$(builds)" = "$3" ] ||
        fail "$1: status $status, $(builds) builds, $(cat "$work/out" "$work/err")"
}

# is_refused CASE WORDS: the last run failed in the script, with a last line that has the words, and without output.
is_refused() {
    [ "$status" = 125 ] && [ ! -s "$work/out" ] && tail -n 1 "$work/err" | grep -q "^apexports: .*$2" ||
        fail "$1: status $status, $(cat "$work/out" "$work/err")"
}

# has_said CASE LINE..: standard error of the last run has each line, which is a pattern.
has_said() {
    for line in "${@:2}"; do
        grep -qx "$line" "$work/err" || fail "$1: no line '$line', but $(cat "$work/err")"
    done
}

say() { run "$checkout/apexports" say "1  2"; }

# as_reader WORD..: as one who cannot write the checkout.
as_reader() {
    chmod -R a-w "$checkout"
    if [ "$(id -u)" = 0 ]; then
        set -- setpriv --reuid=65534 --regid=65534 --clear-groups "$@"
    fi
    run "$@"
    chmod -R u+w "$checkout"
}

# until_there FILE: waits for it.
until_there() {
    for _ in $(seq 600); do
        [ ! -e "$1" ] || return
        sleep 0.05
    done
    fail "$1 does not come"
}
