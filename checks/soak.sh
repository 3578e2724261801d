#!/usr/bin/env bash
# Runs scripts on 1, 4 and 64 workers for so many minutes, records each run and replays it: scripts of random jobs on a
# pool, and those of examples/ with random arguments and random input. Each replay has to write the same bytes and end
# with the same code. Prints how many runs there were, how many steps they took, and how many replays differed; ends with
# an error if one did.
# Usage: checks/soak.sh MINUTES
set -euo pipefail
shopt -s inherit_errexit
cd "$(dirname "$0")/.."
minutes=${1:?a number of minutes}
folder=$(mktemp -d)
trap 'rm -rf "$folder"' EXIT
./tclthread --replay examples/hello.schedule examples/hello.tcl >/dev/null
program=$PWD/crates/tclthread/out/tclthread

# Prints a script of up to 300 jobs, as `--generate` makes them.
random_jobs() {
    local count=$((RANDOM % 300)) n
    echo 'set p [tpool::create -maxworkers 4]'
    echo 'set jobs {}'
    for ((n = 0; n < count; n++)); do
        echo "lappend jobs [tpool::post \$p {tsv::incr sum k$((RANDOM % 8)) $((RANDOM % 1000))}]"
    done
    # The dollars are Tcl's.
    # shellcheck disable=SC2016
    echo 'while {[llength $jobs]} {tpool::wait $p $jobs jobs}'
    # shellcheck disable=SC2016
    echo 'foreach k [lsort [tsv::array names sum]] {puts "$k [tsv::get sum $k]"}'
    echo "puts \"jobs $count\""
}

# Prints up to so many random numbers in a line.
numbers() {
    local count=$((RANDOM % $1)) n
    for ((n = 0; n < count; n++)); do printf '%d ' "$((RANDOM % 1000))"; done
}

# Chooses a script, its arguments and its input.
choose() {
    : >"$folder/input"
    arguments=()
    local scripts=(examples/*.tcl)
    if [ $((RANDOM % 2)) -eq 0 ]; then
        script=$folder/jobs.tcl
        random_jobs >"$script"
        return
    fi
    script=${scripts[RANDOM % ${#scripts[@]}]}
    read -ra arguments <<<"$(numbers 9)" || true
    local n
    for ((n = RANDOM % 20; n > 0; n--)); do numbers 9 && echo; done >"$folder/input"
}

# Runs the program with these words; its outputs and its code go into files of this name.
run() {
    local name=$1
    shift
    local code=0
    timeout 120 "$program" "$@" "$script" "${arguments[@]}" <"$folder/input" >"$folder/$name.out" 2>"$folder/$name.err" ||
        code=$?
    echo "$code" >"$folder/$name.code"
}

# Whether the replay ended otherwise than it has to. A recorded run that was not over is replayed to the end of its
# schedule, with a status line of its own. A greater code than those of the statuses is a crash, or two minutes.
differs() {
    local first again
    first=$(cat "$folder/first.code") again=$(cat "$folder/again.code")
    if [ "$first" -gt 109 ]; then return 0; fi
    if [ "$first" -ge 101 ]; then
        [ "$again" -ne 109 ]
        return
    fi
    [ "$first" -ne "$again" ] || ! cmp -s "$folder/first.err" "$folder/again.err"
}

runs=0 entries=0 differences=0
end=$(($(date +%s) + minutes * 60))
while [ "$(date +%s)" -lt "$end" ]; do
    choose
    for workers in 1 4 64; do
        run first --workers "$workers" --record "$folder/schedule"
        run again --replay "$folder/schedule"
        runs=$((runs + 1))
        entries=$((entries + $(awk 'NR > 1 {steps += $2} END {print steps + 0}' "$folder/schedule")))
        if ! cmp -s "$folder/first.out" "$folder/again.out" || differs; then
            differences=$((differences + 1))
            echo "differs on $workers workers: $script ${arguments[*]}"
            cp -r "$folder" "${TMPDIR:-/tmp}/soak-$differences.$$"
        fi
    done
done
echo "$runs runs, $entries entries, $differences differences"
[ "$differences" -eq 0 ]
