#!/usr/bin/env bash
# Counts the instructions that one step takes, of the twin and of the second simulator, on each benchmark program, by valgrind's callgrind: the difference between
# runs of 200,000 and of 100,000 steps. Run `rt lib` in crates/capi first. The counts are repeatable, whatever else the machine does.
set -euo pipefail
cd "$(dirname "$0")/../comparison"
cargo build --release --quiet --offline --bin steps
count() {
    valgrind --tool=callgrind --callgrind-out-file=/dev/null target/release/steps "$@" 2>&1 | sed -n 's/.*Collected : *//p'
}
for machine in twin simulator; do
    for program in 0 1 2 3; do
        printf '%s %s: %s\n' "$machine" "$program" "$((($(count $machine $program 200000) - $(count $machine $program 100000) + 50000) / 100000))"
    done
done
