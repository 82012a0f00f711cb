#!/usr/bin/env bash
# Two runs of share.sh at once, in a copy of the project: where the program is built neither starts `rt`; where it is not, one starts `rt` and the other
# waits; afterwards a run needs no `rt` until a file that the program stands on is altered or replaced, and what `rt` has noted of the program is as it was.
# The `rt` of these runs stands before the kit's on the path: it tells how often it was started, and fails where another one is at work.
set -u
cd "$(dirname "$0")/.." || exit 1
bash share.sh tests/share/list.in >/dev/null || exit 1

folder=$(mktemp -d) || exit 1
trap 'rm -rf "$folder"' EXIT
mkdir -p "$folder/copy" "$folder/bin"
cp -a share.sh crates crates.txt "$folder/copy"
# The copies are newer than the program's copy.
touch "$folder/copy/crates/share/out/share"
input=$PWD/tests/share/list.in
output=$PWD/tests/share/list.out
kit=$(command -v rt || true)
failed=0

# Makes the `rt` of the runs: its last command is the one given.
make_rt() {
    cat >"$folder/bin/rt" <<R
#!/usr/bin/env bash
echo started >>"$folder/started"
$1
R
    chmod +x "$folder/bin/rt"
    : >"$folder/started"
}

# Says what went wrong.
wrong() {
    echo "twice.sh: $1"
    failed=1
}

# So many runs at once: each has to write what case LIST gives, and `rt` is to be started so many times.
runs() {
    local name=$1 count=$2 starts=$3 at processes=()
    for ((at = 1; at <= count; at++)); do
        PATH="$folder/bin:$PATH" bash "$folder/copy/share.sh" "$input" >"$folder/out$at" 2>"$folder/said$at" &
        processes+=($!)
    done
    for ((at = 1; at <= count; at++)); do
        if ! wait "${processes[at - 1]}" || ! cmp -s "$folder/out$at" "$output"; then
            wrong "$name: a run does not write what case LIST gives; it said:"
            head -n 20 "$folder/said$at"
        fi
    done
    [ "$(wc -l <"$folder/started")" -eq "$starts" ] || wrong "$name: rt was started $(wc -l <"$folder/started") times"
}

make_rt 'exit 1'
runs "two on a built tree" 2 0

make_rt "mkdir '$folder/busy' || exit 1
'$kit' \"\$@\"
status=\$?
rmdir '$folder/busy'
exit \$status"
rm "$folder/copy/crates/share/out/share"
runs "two where the program is not built" 2 1
[ "$(cat "$folder"/said? | grep -c 'waits for it')" -eq 1 ] || wrong "no run said that it waits"
[ "$(cat "$folder"/said? | grep -c 'share.sh: share is proved and built')" -eq 1 ] || wrong "no run named the crate that it proved"

make_rt 'exit 1'
runs "one after them" 1 0

# A file that the program does not stand on starts no rt; one that it stands on does, altered or replaced by one with an older time.
touch "$folder/copy/crates/share_c/src/lib.rt"
runs "one after a file that does not matter" 1 0
make_rt 'exit 0'
touch "$folder/copy/crates/lists/specs/Below.antt"
runs "one after a file was altered" 1 1
make_rt 'exit 0'
cp -p crates/lists/specs/Below.antt "$folder/copy/crates/lists/specs/Below.antt"
runs "one after a file was replaced" 1 1

# Where rt fails, its words are told, and nothing is written.
make_rt 'echo the reason; exit 1'
touch "$folder/copy/crates.txt"
PATH="$folder/bin:$PATH" bash "$folder/copy/share.sh" "$input" >"$folder/out1" 2>"$folder/said1"
[ $? -eq 1 ] && [ ! -s "$folder/out1" ] && grep -q 'the reason' "$folder/said1" || wrong "a failing rt is not told"
cmp crates/share/out/share.stamp "$folder/copy/crates/share/out/share.stamp" || wrong "what rt has noted of the proved program is not what it was"

[ "$failed" -eq 0 ] && echo "twice.sh: two runs at once, on a built tree and on one that is not, and one after them"
