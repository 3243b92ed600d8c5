#!/usr/bin/env bash
# Runs every test of the twin. First the Rattle gate, `rt ci`: it proves every crate, has every must-fail edit refused, runs each test and program, and refuses files
# that are not laid out. Then, on the programs that it built and on the library: the C interface from C and from Rust, the second simulator, the comparison of both, and
# the checks of documents and definitions. The last line is the gate's closing line, printed again where everything passed; else it says what failed, and the status
# is not 0.
set -euo pipefail
cd "$(dirname "$0")/.."
command -v cargo >/dev/null || export PATH="$HOME/.cargo/bin:$PATH"

part() {
    now=$1
    printf '\n== %s\n' "$now"
}

ended() {
    status=$?
    rm -rf "$room"
    [ "$status" -eq 0 ] || printf 'FAILED: %s (status %s)\n' "$now" "$status"
}

room=$(mktemp -d)
now='the start'
trap ended EXIT
trap 'exit 1' HUP INT TERM

part 'rt ci: every crate, must-fail edit, test and program'
rt ci 2>&1 | tee "$room/log"
closing=$(tail -n 1 "$room/log")
[[ $closing =~ ^[1-9][0-9]*' passed, 0 failed'$ ]]

part 'rt ci refused every must-fail edit'
# an edit that does not apply or compile is bad, and the gate passes over it: so the line `rt: ok` has to count every edit among the refused
ok=$(grep '^rt: ok' "$room/log" | tail -n 1)
refused='^rt: ok; handles allowed: [^;]*; must-fail edits: ([0-9]+) refused(, [0-9]+ of them only by a limit)?(, 0 bad)?; '
[[ $ok =~ $refused ]]
edits=$(find crates -path '*/must-fail/*.edit' | wc -l)
printf '%s of %s\n' "${BASH_REMATCH[1]}" "$edits"
[ "${BASH_REMATCH[1]}" -eq "$edits" ]

part 'the static library, of the crates that are proved'
(cd crates/capi && rt lib)

part 'the C example'
cc -std=c99 -Wall -Wextra -Werror -pedantic -o "$room/example" interface/example.c crates/capi/out/libcapi.a
"$room/example"

part 'the Rust wrapper'
(cd interface/rust && cargo test --quiet --offline)

part 'the second simulator'
(cd simulator && cargo test --quiet --offline)

part 'mistakes that the comparison has to find'
(cd comparison && cargo test --quiet --offline)

part 'the comparison of both simulators'
(cd comparison && cargo run --release --quiet --offline)

part 'the commands of docs/USING.md'
python3 tools/using.py

part 'the names in the documents'
python3 tools/names.py

part 'the crates that each crate names'
python3 tools/deps.py

part 'the contracts and their wrong answers'
python3 tools/contracts.py

part 'what has to be believed'
python3 tools/trust.py --check

part 'the modules that open definitions'
python3 tools/open.py --check

printf '%s\n' "$closing"
