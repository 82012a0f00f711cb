#!/usr/bin/env bash
# Program `share` on inputs of its own, each with the output that the paper gives for it: tests/share/NAME.in and NAME.out, and inputs at the
# limit of 32768 bytes, which are made here. Where the program is not built yet share.sh proves and builds it first. The last line counts them.
set -u
cd "$(dirname "$0")/.." || exit 1
bash share.sh tests/share/list.in >/dev/null || exit 1

folder=$(mktemp -d) || exit 1
trap 'rm -rf "$folder"' EXIT
passed=0
failed=0

# One run: its name, the input and the output expected.
run() {
    if crates/share/out/share <"$2" >"$folder/out" && cmp -s "$folder/out" "$3"; then
        passed=$((passed + 1))
    else
        failed=$((failed + 1))
        echo "share.sh: $1: the output is not the one expected:"
        diff "$folder/out" "$3" | head -n 10
    fi
}

for input in tests/share/*.in; do
    name=$(basename "$input" .in)
    run "$name" "$input" "tests/share/$name.out"
done

# Case LIST, and after its events one malformed line that makes the input so many bytes long.
filled() {
    local list=tests/share/list.in
    cat "$list"
    printf 'M'
    head -c $(($1 - $(wc -c <"$list") - 2)) /dev/zero | tr '\0' 'x'
    printf '\n'
}
refused='A   1            0'
{ cat tests/share/list.out; echo "$refused"; } >"$folder/answered"
echo "$refused" >"$folder/refused"
filled 32768 >"$folder/in"
run "32768 bytes are read" "$folder/in" "$folder/answered"
filled 32769 >"$folder/in"
run "32769 bytes are too many" "$folder/in" "$folder/refused"
filled 100000 >"$folder/in"
run "100000 bytes are too many" "$folder/in" "$folder/refused"

# A read or a write that fails ends the program with an error: an input that is a folder, and an output that takes nothing.
fails() {
    if [ "$2" -ne 0 ] && [ -s "$folder/said" ] && [ ! -s "$folder/out" ]; then
        passed=$((passed + 1))
    else
        failed=$((failed + 1))
        echo "share.sh: $1 does not end the program with an error"
    fi
}
: >"$folder/out"
crates/share/out/share </ >"$folder/out" 2>"$folder/said"
fails "a read that fails" $?
crates/share/out/share <tests/share/list.in >/dev/full 2>"$folder/said"
fails "a write that fails" $?

# The command of README.md, on a file and on standard input.
for way in "bash share.sh tests/share/list.in" "bash share.sh"; do
    if $way <tests/share/list.in >"$folder/out" && cmp -s "$folder/out" tests/share/list.out; then
        passed=$((passed + 1))
    else
        failed=$((failed + 1))
        echo "share.sh: '$way' does not give what README.md shows"
    fi
done

echo "share.sh: $passed runs as expected, $failed not"
[ "$passed" -gt 0 ] && [ "$failed" -eq 0 ]
