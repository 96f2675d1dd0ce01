# Read by tests/vectors and tests/hostile: builds what they run. `here` is the repository's folder.

# say WORDS: to standard error
say() { echo "$(basename "$0"): $*" >&2; }

# quietly FOLDER WORDS: runs a command in a folder of the repository, and shows what it said only where it fails
quietly() {
    folder=$here/$1
    shift
    say "$* (once)"
    mkdir -p "$here/build/tests"
    if ! (cd "$folder" && "$@") >"$here/build/tests/build.log" 2>&1 </dev/null; then
        tail -n 20 "$here/build/tests/build.log" >&2
        say "failed; build/tests/build.log has all that it said"
        exit 2
    fi
}

# older THAT THIS..: THAT is missing, or older than some Rattle source or driver named
older() {
    that=$1
    shift
    [ ! -e "$that" ] || [ -n "$(find "$@" -type f -newer "$that" 2>/dev/null | head -n 1)" ]
}

# build NAME: the archive of the calls, the verdict program, and the driver tests/NAME.rs, each where it is missing or old
build() {
    if [ "$(uname -m)" != x86_64 ]; then
        say "the archive links into x86-64 programs only"
        exit 2
    fi
    archive=$here/build/libentry.a
    program=$here/crates/verdict/out/verdict
    driver=$here/build/tests/$1
    if older "$archive" "$here"/crates/*/src; then
        quietly crates/entry_c rt lib
        cp "$here/crates/entry_c/out/libentry_c.a" "$archive" || exit 2
    fi
    if older "$program" "$here"/crates/*/src; then
        quietly crates/verdict rt run
        touch "$program"
    fi
    if older "$driver" "$here/tests/$1.rs" "$here/tests/calls.rs" "$here/tests/entry.rs" "$archive"; then
        quietly . rustc --edition 2021 -O -L "$here/build" -o "$driver" "$here/tests/$1.rs"
    fi
}
