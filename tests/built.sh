#!/usr/bin/env bash
# Proves and builds program `share`, by share.sh, program `changeovers` and the static library, where one is not there yet or a crate has changed since.
set -u
cd "$(dirname "$0")/.." || exit 1

# Whether an output stands and no file of a crate is newer.
stands() {
    [ -e "$1" ] && [ -z "$(find crates crates.txt \( -name out -prune \) -o \( -name '*.rt' -o -name '*.antt' -o -name crates.txt \) -newer "$1" -print -quit)" ]
}

# Builds an output, in a crate's folder, by a command of `rt`. Where only crates have changed that it does not stand on, `rt` builds nothing. A file altered
# meanwhile is newer than the time at which this began.
build() {
    local output=$1 folder=$2 began
    shift 2
    began=$(mktemp) || exit 1
    (cd "$folder" && rt "$@" </dev/null >&2) || exit 1
    touch -r "$began" "$output" || exit 1
    rm "$began"
}

bash share.sh tests/share/list.in >/dev/null || exit 1
stands crates/changeovers/out/changeovers || build crates/changeovers/out/changeovers crates/changeovers run
stands crates/share_c/out/libshare_c.a || build crates/share_c/out/libshare_c.a crates/share_c lib
