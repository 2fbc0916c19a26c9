#!/bin/sh
# Measures the proved services: builds them, compares every contender, times, counts instructions, and writes data, plots and the tables of
# docs/PERFORMANCE.md. It takes some 30 minutes; `bench/run.sh quick` takes less, and its times are worth less.
set -eu
cd "$(dirname "$0")/.."
cargo build --release -p measure
measure=target/cargo/release/measure
# The deepest search and check under a limit on the stack; then without one.
(ulimit -s 2048 && "$measure" stack)
"$measure" all "$@"
