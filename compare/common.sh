# shellcheck shell=bash
# What run and scale share: finding the source, building, comparing. To be read by bash.
# Leaves the shell in compare/, with the programs given as arguments in `programs`.
set -euo pipefail

fail() {
    echo "compare: $*" >&2
    exit 1
}

# prepare PROGRAM ..: names are the caller's, so they are made absolute before leaving.
prepare() {
    local here source tool program
    here=$(dirname "$0")
    for tool in cargo rustc; do
        command -v "$tool" > /dev/null || fail "$tool is missing"
    done
    source=${STARK_BACKEND:-$here/../../shared/docs/src}
    [ -d "$source/crates/cuda-common/src" ] ||
        fail "no Rust source in $source: set STARK_BACKEND to the root of a stark-backend checkout"
    if [ -n "${STARK_BACKEND:-}" ]; then
        STARK_BACKEND=$(realpath "$STARK_BACKEND")
        export STARK_BACKEND
    fi
    programs=()
    for program; do
        [ -x "$program" ] || fail "no such program: $program"
        programs+=("$(realpath "$program")")
    done
    cd "$here"
    cargo build --offline --quiet --release
    cargo build --offline --quiet --profile checked
    made=target/compare
    rm -rf "$made"
    mkdir -p "$made"
    differences=0
}

# same WHAT WANTED GOT: says where two files first differ.
same() {
    cmp -s "$2" "$3" && return
    differences=$((differences + 1))
    echo "$1 differs from $2:"
    diff "$2" "$3" | head -n 4 || true
}

# prints PROGRAM TRACE WANTED: the program reads a trace and must print what WANTED has.
prints() {
    "$1" < "$2" > "$made/printed" || {
        differences=$((differences + 1))
        echo "$1 fails on $2"
    }
    same "$1 on $2" "$3" "$made/printed"
}

# replays PROGRAM TRACE: what it prints is the trace itself, but for lines of small buffers, which
# replay passes over.
replays() {
    sed -E '/^(small|dropsmall)\t/d' "$2" > "$made/wanted"
    prints "$1" "$2" "$made/wanted"
}

# shows_tables PROGRAM TRACE: it prints what the Rust prints with its tables.
shows_tables() {
    target/release/rust_replay --tables < "$2" > "$made/tables" || fail "rust_replay --tables fails on $2"
    prints "$1" "$2" "$made/tables"
}

# rust_replays TRACE: the Rust does, with and without debug assertions.
rust_replays() {
    replays target/release/rust_replay "$1"
    replays target/checked/rust_replay "$1"
}
