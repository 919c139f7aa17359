#!/bin/sh
# Measures the engines. Run it at the top of the repository, outside the gate: it proves and builds co_engine_rows, builds the plain engines of
# engines.rs, and plays the same loads on both. It needs rustc and valgrind. Words behind it choose the loads whose names have them.
set -eu

(cd crates/co_engine_rows && rt run <stdin >/dev/null)
plain=$(mktemp -d)
trap 'rm -rf "$plain"' EXIT
rustc -O --edition 2021 bench/engines.rs -o "$plain/engines"
python3 bench/engines.py crates/co_engine_rows/out/co_engine_rows "$plain/engines" "$@"
