#!/usr/bin/env bash
# The benchmark: program and library against the second implementation on the same data in one run. It is no test, and nothing is judged by it.
set -u
cd "$(dirname "$0")/.." || exit 1
bash tests/built.sh || exit 1
cd tests && cargo build --quiet --release -p second -p bench && cargo run --quiet --release -p bench
