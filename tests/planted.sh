#!/usr/bin/env bash
# Faults planted in a copy of the second implementation, one at a time: a run has to find each, by a difference that it reports and nothing else. A run that
# breaks off, by a panic say, has found nothing, and fails the test. The soak sees only those that the book has too, and one that the run over the calendar
# finds is not looked for elsewhere. A fault is a file
# tests/planted/NAME.edit: a sentence, the file, and the text that stands there once with the one that replaces it, as in the must-fail edits.
set -u
cd "$(dirname "$0")/.." || exit 1
home=$PWD
bash tests/built.sh || exit 1

folder=$(mktemp -d) || exit 1
trap 'rm -rf "$folder"' EXIT
mkdir "$folder/tests"
cp -r tests/Cargo.toml tests/runs tests/bench "$folder/tests"
ln -s "$home/crates" "$folder/crates"
caught=0
missed=0

# Plants a fault in the copy.
plant() {
    rm -rf "$folder/tests/second"
    cp -r tests/second "$folder/tests"
    python3 - "$1" "$folder/tests/second" <<'P'
import sys
fields = dict(line.rstrip("\n").split(": ", 1) for line in open(sys.argv[1]) if not line.startswith("#"))
path = sys.argv[2] + "/" + fields["file"]
text = open(path).read()
if text.count(fields["old"]) != 1:
    sys.exit(f"{sys.argv[1]}: its old text stands {text.count(fields['old'])} times in {fields['file']}")
open(path, "w").write(text.replace(fields["old"], fields["new"]))
P
}

for edit in tests/planted/*.edit; do
    name=$(basename "$edit" .edit)
    if ! plant "$edit" || ! (cd "$folder/tests" && cargo build --quiet --offline --profile checked -p runs --target-dir "$folder/cargo"); then
        missed=$((missed + 1))
        continue
    fi
    found=
    broken=
    for run in calendar program library "soak 1 20000"; do
        # shellcheck disable=SC2086
        "$folder/cargo/checked/runs" $run >"$folder/out" 2>&1
        status=$?
        if [ "$status" -eq 1 ] && grep -qE 'differ|, the book' "$folder/out" && ! grep -q 'panicked at' "$folder/out"; then
            found="$found ${run%% *}"
            [ "$run" = calendar ] && break
        elif [ "$status" -ne 0 ]; then
            broken="$broken ${run%% *}"
            echo "planted.sh: $name: the run ${run%% *} ends with status $status and reports no difference:"
            head -n 5 "$folder/out"
        fi
    done
    if [ -n "$broken" ]; then
        missed=$((missed + 1))
    elif [ -n "$found" ]; then
        caught=$((caught + 1))
        echo "planted.sh: $name is found by:$found"
    else
        missed=$((missed + 1))
        echo "planted.sh: $name is not found"
    fi
done
echo "planted.sh: $caught planted faults found, $missed not"
[ "$caught" -gt 0 ] && [ "$missed" -eq 0 ]
