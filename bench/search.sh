#!/usr/bin/env bash
# Prints for each script with a fault (crates/rows_search/data) in how many of RUNS runs on four workers the fault shows
# by itself, and in which run tclsearch finds it with each of ten seeds. A run shows it if it ends with
# another code than 0. Then come the steps that a search takes in a second on the scripts of examples/ that end: the
# steps of 200 runs by one worker beside the one in turn, by the time that they take. The start of the process counts in.
# Ends with an error if a search finds nothing, or something in an example.
# Further runs differ by what else the machine does.
# Usage: bench/search.sh [RUNS]
set -euo pipefail
shopt -s inherit_errexit
cd "$(dirname "$0")/.."
runs=${1:-1000}
folder=$(mktemp -d)
trap 'rm -rf "$folder"' EXIT
thread=./crates/tclthread/out/tclthread
search=./crates/tclsearch/out/tclsearch
data=crates/rows_search/data

# Builds the programs if that is needed.
./tclthread --replay examples/hello.schedule examples/hello.tcl >/dev/null
./tclsearch --runs 1 examples/hello.tcl >/dev/null 2>&1

# What the search says on standard error is read by these two functions alone.

# Prints the number of the run that was found, of what a search said; none if nothing was.
run_of() {
    sed -n 's/^tclsearch: run \([0-9]*\) of seed .*/\1/p' "$1" | head -n 1
}

# Prints how many steps all runs of a search took, of what it said.
steps_of() {
    sed -n 's/^tclsearch: .*, in \([0-9]*\) steps$/\1/p' "$1" | head -n 1
}

# Prints in how many of the runs on four workers the script, with this input, ends with another code than 0.
shown() {
    local count=0
    for _ in $(seq "$runs"); do
        "$thread" --workers 4 "$data/$1" <"$2" >/dev/null 2>&1 || count=$((count + 1))
    done
    echo "$count"
}

# Prints the run in which the search finds the script's fault, for each seed; a dash if it finds none.
found() {
    local seed code
    for seed in $(seq 0 9); do
        code=0
        "$search" --seed "$seed" "$data/$1" <"$2" >/dev/null 2>"$folder/said" || code=$?
        if [ "$code" -eq 1 ]; then
            printf ' %s' "$(run_of "$folder/said")"
        else
            printf ' -'
            : >"$folder/failed"
        fi
    done
}

while IFS= read -r line; do
    if [ "${line#* => }" = none ]; then continue; fi
    read -r script _ input <<<"${line%% => *}"
    input=${input:+$data/$input}
    printf '%s: on workers in %d of %d runs; found in run%s\n' "$script" \
        "$(shown "$script" "${input:-/dev/null}")" "$runs" "$(found "$script" "${input:-/dev/null}")"
done <"$data/scripts.rows"

# Prints the steps a second of a search by one worker on an example with this input and these arguments.
report() {
    local name=$1 input=$2 begun took code=0
    shift 2
    printf '%b' "$input" >"$folder/input"
    begun=$(date +%s%N)
    "$search" --workers 1 --runs 200 "examples/$name.tcl" "$@" <"$folder/input" >/dev/null 2>"$folder/said" || code=$?
    took=$(($(date +%s%N) - begun))
    [ "$code" -eq 0 ] || : >"$folder/failed"
    printf '%s: %d steps in %d ms, %d a second\n' "$name" "$(steps_of "$folder/said")" $((took / 1000000)) \
        $(($(steps_of "$folder/said") * 1000000000 / took))
}

# race is left out, since a search of it ends with its first find.
for name in hello sum reports nested greetings bank queue build pipeline; do report "$name" ''; done
report squares '' 3 4 5
report numbered 'one\ntwo\nthree\n'
report words 'the cat\nand The dog\n'

if [ -e "$folder/failed" ]; then exit 1; fi
