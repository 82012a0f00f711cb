#!/usr/bin/env bash
# The static library for C and Rust: it is proved and built, its header is compiled as C and as C++, and the example programs of both languages are built
# and run. Each has to write what program `share` writes for case LIST, what program `changeovers` writes, or the origins that were worked out by hand. Header
# and Rust package give a result the room that crates/evaluation has proved enough, and the table of changeover days as many entries as crates/calendar has;
# they have the same origins. The tests of the Rust package itself are run too.
set -u
cd "$(dirname "$0")/.." || exit 1
bash tests/built.sh || exit 1

home=crates/share_c
folder=$(mktemp -d) || exit 1
trap 'rm -rf "$folder"' EXIT
strict="-Wall -Wextra -Werror -pedantic"
failed=0

# One example: its language, the file with what it has to write, then the command that runs it.
run() {
    local language=$1 expected=$2
    shift 2
    if ! "$@" >"$folder/out" || ! cmp "$folder/out" "$expected"; then
        echo "library.sh: an example in $language does not write what $expected has"
        failed=1
    fi
}

# The number that stands behind a name in a file.
number() {
    sed -nE "s/.*$1(: [a-z0-9]+)?( =)? ([0-9]+)[^0-9]*$/\3/p" "$2"
}

# A number that is given in several files, by the first of them: its name there, the file, then a name and a file for each other.
same() {
    local first
    first=$(number "$1" "$2")
    shift 2
    while [ $# -gt 0 ]; do
        if [ -z "$first" ] || [ "$(number "$1" "$2")" != "$first" ]; then
            echo "library.sh: $1 of $2 is not what it has to be"
            failed=1
        fi
        shift 2
    done
}

same result_most crates/evaluation/specs/Layout.antt RESULT_MOST crates/evaluation/src/lib.rt RESULT_MOST $home/share.h RESULT_MOST $home/rust/src/lib.rs
same 'number_of_origin Measured' crates/lookup/specs/Substitutes.antt SHARE_MEASURED $home/share.h Measured $home/rust/src/origin.rs
same 'number_of_origin ZeroByStatus' crates/lookup/specs/Substitutes.antt SHARE_ZERO_BY_STATUS $home/share.h ZeroByStatus $home/rust/src/origin.rs
same 'number_of_origin ZeroForLack' crates/lookup/specs/Substitutes.antt SHARE_ZERO_FOR_LACK $home/share.h ZeroForLack $home/rust/src/origin.rs
same changeover_count crates/calendar/specs/Changeovers.antt CHANGEOVER_COUNT $home/share.h CHANGEOVER_COUNT $home/rust/src/lib.rs
same TEXT_MOST $home/share.h TEXT_MOST $home/rust/src/lib.rs

# The origins of a file, each with its number, by the lines that a substitution gives; ZeroByStatus is written ZERO_BY_STATUS.
origins() {
    sed -nE "$1" "$2" | sed -E 's/([a-z])([A-Z])/\1_\2/g; s/.*/\U&/'
}

in_header=$(origins '/^ *SHARE_MEASURED /,/^}/s/^ *SHARE_([A-Z_]+) = ([0-9]+).*/\2 \1/p' $home/share.h)
in_package=$(origins '/^pub enum Origin /,/^}/s/^ *([A-Za-z]+) = ([0-9]+),$/\2 \1/p' $home/rust/src/origin.rs)
if [ "$(cut -d ' ' -f 1 <<<"$in_header")" != "$(seq 0 6)" ] || [ "$in_package" != "$in_header" ]; then
    echo "library.sh: header and Rust package have not the same seven origins"
    failed=1
fi

# The examples of one name, in C and in Rust, and the file with what they have to write.
both() {
    # shellcheck disable=SC2086
    cc -std=c99 $strict -O2 -I $home "$home/examples/$1.c" crates/share_c/out/libshare_c.a -o "$folder/$1" || failed=1
    run C "$2" "$folder/$1"
    run Rust "$2" cargo run --quiet --offline --release --manifest-path $home/rust/Cargo.toml --target-dir target/cargo --example "$1"
}

# shellcheck disable=SC2086
c++ $strict -fsyntax-only -x c++ $home/share.h || failed=1
both list tests/share/list.out
both changeovers crates/changeovers/stdout
both origins $home/examples/origins.out
cargo test --quiet --offline --release --manifest-path $home/rust/Cargo.toml --target-dir target/cargo --lib || failed=1

[ "$failed" -eq 0 ] && echo "library.sh: case LIST, the changeover days and the origins through the library, in C and in Rust"
