#!/usr/bin/env bash
# No proof walks through a function's steps by hand: the check makes that part itself, and a proof is what a loop keeps, in Invariants.antt, and the goals that
# it leaves, in Answers.antt. A walk is told by its file's name; in another folder one that is put there is found.
set -u
cd "$(dirname "$0")/.." || exit 1

# Says which walks stand below a folder; the exit status is 1 where there are any.
walks() {
    local found
    found=$(find "$1" -name out -prune -o -name Proof.antt -print)
    [ -z "$found" ] || { echo "walks.sh: a walk by hand: $found"; return 1; }
}

folder=$(mktemp -d) || exit 1
trap 'rm -rf "$folder"' EXIT
mkdir -p "$folder/crates/share_c/proofs/share_submit"
walks "$folder/crates" || exit 1
touch "$folder/crates/share_c/proofs/share_submit/Proof.antt"
if walks "$folder/crates" >"$folder/said"; then
    echo "walks.sh: a walk is not found in another folder"
    exit 1
fi
walks crates
