#!/usr/bin/env bash
# One run against the second implementation:  bash tests/runs.sh program|library|calendar|soak [SEED [COUNT]]
# A failure prints its seed and the smallest failing input found. The programs and the static library are proved and built first, where that is due.
set -u
cd "$(dirname "$0")/.." || exit 1
bash tests/built.sh || exit 1
cd tests && cargo run --quiet --profile checked -p runs -- "$@"
