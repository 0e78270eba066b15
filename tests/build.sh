# Sourced, with `root` set to the repository: builds what several programs link, each where it is missing or a source is newer.

# newer FILE PATH.. [TEST..]: whether FILE is missing or something under PATH.. that passes the tests of `find` is newer, edits that must fail apart.
newer() {
    made=$1
    shift
    [ ! -e "$made" ] || [ -n "$(find "$@" -type f ! -path '*/must-fail/*' -newer "$made" -print -quit)" ]
}

. "$root/tests/progress.sh"

# A file for what a command prints: $log.
open_log() {
    mkdir -p "$root/target" || exit 2
    log=$root/target/build.$$.log
}

# close_log STATUS: the command is over with that status. If it failed, what it printed is shown.
close_log() {
    rewrite
    [ "$1" -eq 0 ] || cat "$log" >&2
    rm -f "$log"
    [ "$1" -eq 0 ] || exit 2
}

# quietly COMMAND..: runs it without the standard input and shows what it printed only if it fails.
quietly() {
    open_log
    "$@" </dev/null >"$log" 2>&1
    close_log "$?"
}

# building FILE COMMAND..: the same, for a command that makes FILE in seconds; a terminal says meanwhile what is waited for.
building() {
    rewrite "building ${1#"$root"/}"
    shift
    quietly "$@"
}

# The proved engine for C and Rust to link: $archive. Its proof is checked on the way, which takes a minute or more.
# It stands on all crates but lines, script, cases and runner. `rt ci` removes what `rt lib` leaves in the crate's out/, so it is copied.
build_archive() {
    archive=$root/target/staticlib/libbank.a
    if newer "$archive" "$root/crates" "$root/crates.txt" ! -path "$root/crates/*/out/*" ! -path "$root/crates/lines/*" ! -path "$root/crates/script/*" \
        ! -path "$root/crates/cases/*" ! -path "$root/crates/runner/*"; then
        echo "building target/staticlib/libbank.a" >&2
        proving bank env -C "$root/crates/bank" rt lib
        place "$root/crates/bank/out/libbank.a" "$archive"
    fi
}

# The proved line runner: $runner. Its proof is checked on the way too, unless `rt ci` has left the program.
build_runner() {
    runner=$root/target/bin/runner
    if newer "$runner" "$root/crates" "$root/crates.txt" ! -path "$root/crates/*/out/*" ! -path "$root/crates/cases/*"; then
        if newer "$root/crates/runner/out/runner" "$root/crates" "$root/crates.txt" ! -path "$root/crates/*/out/*" ! -path "$root/crates/cases/*"; then
            echo "building target/bin/runner: all proofs below it are checked, which takes minutes" >&2
            proving runner env -C "$root/crates/runner" rt run
        fi
        place "$root/crates/runner/out/runner" "$runner"
    fi
}

# place MADE FILE: puts what was made there, all at once.
place() {
    mkdir -p "$(dirname "$2")" && cp "$1" "$2.$$" && mv "$2.$$" "$2" || exit 2
}

# The second engine as a library of Rust: $second.
build_second() {
    second=$root/target/second/libsecond.rlib
    if newer "$second" "$root/tests/second_engine/src"; then
        mkdir -p "$root/target/second" || exit 2
        building "$second" rustc --edition 2021 -C opt-level=3 --crate-type rlib --crate-name second -o "$second" "$root/tests/second_engine/src/lib.rs"
    fi
}
