#!/usr/bin/env bash
# Tries each script of examples/, each schedule beside it, and a script of 200 jobs on a pool: cut off at every byte, and
# with a byte left out, doubled or replaced at every seventh place (`rows_prefix`). Prints how many of them end with which
# status; ends with an error if one ends with none. With NAME only the example of that name, or `jobs`.
# Usage: checks/cut-texts.sh [NAME]
set -euo pipefail
shopt -s nullglob
cd "$(dirname "$0")/.."
name=${1:-*}
./tclthread --replay examples/hello.schedule examples/hello.tcl >/dev/null
(cd crates/rows_prefix && rt run >/dev/null)
program=$PWD/crates/rows_prefix/out/rows_prefix
folder=$(mktemp -d)
trap 'rm -rf "$folder"' EXIT
# The dollar is Tcl's.
# shellcheck disable=SC2016
sed 's/{$i <= 5}/{$i <= 200}/' crates/rows_prefix/data/jobs.tcl >"$folder/jobs.tcl"
cp examples/*.tcl examples/*.schedule "$folder"
cd "$folder"
# The name is a pattern.
# shellcheck disable=SC2231
for script in $name.tcl; do
    "$program" "$script" "${script%.tcl}"*.schedule
done
