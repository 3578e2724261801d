#!/usr/bin/env bash
# Prints the least stack in KiB, within 8 KiB, in which 1,000 nested brackets are read, and 1,000 nested indices; and in
# which one worker evaluates 300 calls of a procedure within one another, through each kind of script. Arguments
# are handed to `rt run`, which builds what reads: `--backend rattle` measures what Rattle's own compiler makes.
set -euo pipefail
cd "$(dirname "$0")/.."
program=$PWD/crates/tclthread/out/tclthread
folder=$(mktemp -d)
trap 'rm -rf "$folder"' EXIT

# The least stack on which this command succeeds.
least() {
    local low=8 high=8192 middle
    while [ $((high - low)) -gt 8 ]; do
        middle=$(((low + high) / 2))
        if (ulimit -s "$middle" && "$@" || exit 1) >/dev/null 2>&1; then
            high=$middle
        else
            low=$middle
        fi
    done
    echo "$high KiB"
}

# Each row: what the call of the next procedure stands in, and the body of a procedure that has it.
rows() {
    cat <<'ROWS'
a body|if {$n > 0} {f [expr {$n - 1}]}
brackets in an expression|if {$n == 0} {return 0}; expr {1 + [f [expr {$n - 1}]]}
while|while {$n > 0} {f [expr {$n - 1}]; break}
foreach|foreach x 1 {if {$n > 0} {f [expr {$n - 1}]}}
catch|catch {if {$n > 0} {f [expr {$n - 1}]}}
eval|eval {if {$n > 0} {f [expr {$n - 1}]}}
switch|switch 1 1 {if {$n > 0} {f [expr {$n - 1}]}}
ROWS
}

while IFS='|' read -r name body; do
    printf 'proc f {n} {%s}\nf 300\n' "$body" >"$folder/nested.tcl"
    echo "$name: $(least "$program" --workers 1 "$folder/nested.tcl")"
done < <(rows)

cd crates/bench_words
rt run "$@" >/dev/null
for what in brackets indices; do
    echo "$what: $(least out/bench_words "$what")"
done
