#!/usr/bin/env bash
# Records runs in which two threads come to wait for each other while others go on, on 4 workers. Of each it looks for
# the first entry after which the report of `--waits` names both as a deadlock, and then for a step of either after it.
# Prints how many runs there were, how many had a deadlock, how many entries came after it, and how many of these were
# steps of the two; ends with an error if one was, or if no run had a deadlock.
# Usage: checks/deadlocks.sh RUNS
set -euo pipefail
cd "$(dirname "$0")/.."
runs=${1:?a number of runs}
folder=$(mktemp -d)
trap 'rm -rf "$folder"' EXIT
program=${PROGRAM:-./crates/tclthread/out/tclthread}
if [ -z "${PROGRAM:-}" ]; then ./tclthread --replay examples/hello.schedule examples/hello.tcl >/dev/null; fi

cat >"$folder/script.tcl" <<'TCL'
set a [thread::mutex create]
set b [thread::mutex create]
set takes {
    thread::mutex lock [lindex $argv 0]
    tsv::incr turns n
    thread::mutex lock [lindex $argv 1]
    thread::mutex unlock [lindex $argv 1]
    thread::mutex unlock [lindex $argv 0]
}
set one [thread::create [list eval "set argv [list [list $a $b]]; $takes"]]
set other [thread::create [list eval "set argv [list [list $b $a]]; $takes"]]
for {set k 0} {$k < 3} {incr k} {
    lappend others [thread::create -joinable {for {set i 0} {$i < 20} {incr i} {tsv::incr turns n}}]
}
foreach t $others {thread::join $t}
vwait forever
TCL

# The first so many entries of the run, as a schedule.
first() {
    awk -v left="$1" 'BEGIN {print "schedule 1"}
        NR > 1 && left > 0 {n = $2 < left ? $2 : left; left -= n; print $1, n}' "$folder/run.schedule"
}

# Whether two threads are named as a deadlock after so many entries.
is_deadlock() {
    first "$1" >"$folder/first.schedule"
    "$program" --replay "$folder/first.schedule" --waits "$folder/script.tcl" >"$folder/out" 2>"$folder/errors" || true
    [ "$(tail -n 1 "$folder/errors")" = 'deadlock tid2 tid3' ]
}

deadlocks=0 later=0 steps=0
for ((run = 0; run < runs; run++)); do
    "$program" --workers 4 --record "$folder/run.schedule" "$folder/script.tcl" >"$folder/out" 2>"$folder/errors" || true
    high=$(awk 'NR > 1 {n += $2} END {print n}' "$folder/run.schedule")
    if ! is_deadlock "$high"; then continue; fi
    deadlocks=$((deadlocks + 1))
    low=0 last=$high
    while [ $((high - low)) -gt 1 ]; do
        middle=$(((low + high) / 2))
        if is_deadlock "$middle"; then high=$middle; else low=$middle; fi
    done
    later=$((later + last - high))
    taken=$(awk -v skip="$high" 'NR > 1 {
        n = $2; if (skip >= n) {skip -= n; next}
        n -= skip; skip = 0; if ($1 == 2 || $1 == 3) count += n
    } END {print count + 0}' "$folder/run.schedule")
    steps=$((steps + taken))
done
echo "$runs runs, $deadlocks with a deadlock, $later entries after it, $steps steps of the two"
[ "$deadlocks" -gt 0 ] && [ "$steps" -eq 0 ]
