#!/usr/bin/env bash
# Prints the time of a turn with `dict set`, `dict get`, `dict incr` and `dict exists` on a variable whose dictionary has
# 1,000 and 100,000 keys, over TURNS turns; and the time of a whole `dict for` over 100,000 pairs. Each is the least of
# RUNS runs, less that of the same script without turns. If tclsh is installed, its time stands beside each.
# Further runs differ by what else the machine does.
# Usage: bench/dict.sh [RUNS [TURNS]]
set -euo pipefail
shopt -s inherit_errexit
cd "$(dirname "$0")/.."
runs=${1:-3} turns=${2:-200000}
. bench/lib/scripts.bash

# The least time in ns of RUNS runs of a command.
least() {
    local best='' begun ended
    for _ in $(seq "$runs"); do
        begun=$(date +%s%N)
        "$@"
        ended=$(date +%s%N)
        if [ -z "$best" ] || [ $((ended - begun)) -lt "$best" ]; then best=$((ended - begun)); fi
    done
    echo "$best"
}

# Writes the script NAME: a dictionary of so many keys, and so many turns of a command.
write() {
    cat >"$folder/$1.tcl" <<TCL
for {set i 0} {\$i < $2} {incr i} {lappend d k\$i \$i}
dict set d k0 0
for {set i 0} {\$i < $3} {incr i} {$4}
TCL
}

# The time in ns of one of so many turns, by a command that runs scripts.
turn() {
    local with without
    with=$(least "$@" "$folder/turns.tcl")
    without=$(least "$@" "$folder/none.tcl")
    echo $(((with - without) / count))
}

# A line on so many turns of a command among so many keys, and on so many in tclsh.
report() {
    local what=$1 keys=$2 command=$5
    write none "$keys" 0 "$command"
    count=$3
    write turns "$keys" "$count" "$command"
    printf '%s, %d keys: %d ns' "$what" "$keys" "$(turn ./crates/tclthread/out/tclthread)"
    if command -v tclsh >/dev/null; then
        count=$4
        write turns "$keys" "$count" "$command"
        printf ', tclsh %d' "$(turn tclsh)"
    fi
    printf '\n'
}

for keys in 1000 100000; do
    report 'dict set' $keys $turns $turns 'dict set d k500 $i'
    report 'dict get' $keys $turns $turns 'dict get $d k500'
    report 'dict incr' $keys $turns $turns 'dict incr d k500'
    report 'dict exists' $keys $turns $turns 'dict exists $d k500'
done
report 'dict for, all pairs' 100000 5 5 'dict for {k v} $d {}'
