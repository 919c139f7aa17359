#!/bin/sh
# Runs the gate from nothing and tells what each crate's proof, tests and wrong bodies took, slowest first.
# Run it at the top of a fresh clone, with nothing beside it. A word is the file that the gate's own output
# goes to, gate.log where there is none; every process of the gate is a line of FILE.jobs.
set -eu
cd "$(dirname "$0")/.."
exec python3 bench/gate_times.py "${1:-gate.log}"
