#!/usr/bin/env bash
# Prints the processor time of the reports of a replay and of a debugging session, in milliseconds, the least of RUNS
# runs, with the start of the process:
# - `--waits`: of 900 threads in one circle of waiting, and of 450 that wait for a lock with 450 readers, beside the
#   replay without a report;
# - `--races`: of 9,800 calls of two threads on one key, 24 million pairs, which may take 5 s, and of 20 threads on one
#   key, with the most resident memory, which may be 50 MB;
# - `--debug`: the way back from entry 100,000, which may take 1.2 of the replay of 100,000 entries, and a step at
#   entry 98,000 and at entry 10, of a thousand each.
# It ends with 1 if a row is above its bound. PROGRAM is another build of the program, for trials.
# Usage: bench/reports.sh [RUNS]
set -euo pipefail
cd "$(dirname "$0")/.."
runs=${1:-5}
folder=$(mktemp -d)
trap 'rm -rf "$folder"' EXIT
program=${PROGRAM:-./crates/tclthread/out/tclthread}

# Builds the program if it is needed.
if [ -z "${PROGRAM:-}" ]; then ./tclthread --replay examples/hello.schedule examples/hello.tcl >/dev/null; fi

cat >"$folder/circle.tcl" <<'TCL'
for {set k 0} {$k < 900} {incr k} {lappend locks [thread::mutex create]; lappend threads [thread::create]}
foreach t $threads m $locks {thread::send $t [list thread::mutex lock $m]}
foreach t $threads m [concat [lrange $locks 1 end] [lindex $locks 0]] {
    thread::send -async $t [list thread::mutex lock $m]
}
vwait forever
TCL
cat >"$folder/readers.tcl" <<'TCL'
set lock [thread::rwmutex create]
for {set k 0} {$k < 450} {incr k} {lappend readers [thread::create]; lappend writers [thread::create]}
foreach t $readers {thread::send $t [list thread::rwmutex rlock $lock]}
foreach t $writers {thread::send -async $t [list thread::rwmutex wlock $lock]}
vwait forever
TCL
cat >"$folder/two.tcl" <<'TCL'
set script {for {set i 0} {$i < 4900} {incr i} {tsv::set a x $i}}
set t [thread::create -joinable $script]
eval $script
thread::join $t
TCL
cat >"$folder/twenty.tcl" <<'TCL'
set script {for {set i 0} {$i < 450} {incr i} {tsv::set a x $i}}
for {set k 1} {$k < 20} {incr k} {lappend threads [thread::create -joinable $script]}
eval $script
foreach t $threads {thread::join $t}
TCL
echo 'foreach x [lrepeat 100000 x] {thread::exists tid1}' >"$folder/long.tcl"

# The least processor time of a command, in milliseconds. What it writes is kept; its code is not looked at.
least() {
    local best='' took
    for _ in $(seq "$runs"); do
        TIMEFORMAT='%U %S'
        took=$({ time "$@" >"$folder/out" 2>"$folder/errors" || true; } 2>&1 | awk '{printf "%d", 1000 * ($1 + $2)}')
        if [ -z "$best" ] || [ "$took" -lt "$best" ]; then best=$took; fi
    done
    echo "$best"
}

replayed() {
    local name=$1
    shift
    least "$program" --replay "$folder/$name.schedule" "$@" "$folder/$name.tcl"
}

high=0
bounded() {
    if [ "$2" -gt "$3" ]; then high=1; fi
    echo "$1"
}

for name in circle readers two twenty long; do
    "$program" --workers 1 --record "$folder/$name.schedule" "$folder/$name.tcl" >"$folder/out" 2>"$folder/errors" || true
done

for name in circle readers; do
    plain=$(replayed "$name")
    report=$(replayed "$name" --waits)
    bounded "--waits, $name: $report ms, and $plain ms without it, bound $((plain + 200)) ms" "$report" $((plain + 200))
done
for name in two twenty; do
    took=$(replayed "$name" --races)
    bounded "--races, $name: $(tail -n 1 "$folder/errors"), $took ms, bound 5000 ms" "$took" 5000
done
if type -P time >/dev/null; then
    command time -f %M -o "$folder/memory" "$program" --replay "$folder/twenty.schedule" --races "$folder/twenty.tcl" \
        >"$folder/out" 2>&1 || true
    memory=$(tail -n 1 "$folder/memory")
    bounded "--races, twenty: $memory KiB at most, bound 50000 KiB" "$memory" 50000
fi

# The time of a debugging session with these commands.
session() {
    printf '%s\n' "$@" >"$folder/commands"
    least "$program" --replay "$folder/long.schedule" --debug "$folder/commands" "$folder/long.tcl"
}

whole=$(replayed long)
forth=$(session 'to 100000')
back=$(session 'to 100000' 'back 1')
bounded "--debug: $((back - forth)) ms for a way back from entry 100,000, and $whole ms for a replay, bound 1.2 of it" \
    $((10 * (back - forth))) $((12 * whole))
thousand() { for _ in $(seq 1000); do echo 'step 1'; done; }
mapfile -t steps < <(thousand)
late=$(session 'to 98000' "${steps[@]}")
late=$((late - $(session 'to 98000')))
early=$(session 'to 10' "${steps[@]}")
early=$((early - $(session 'to 10')))
echo "--debug: $late µs for a step at entry 98,000, and $early µs at entry 10"
exit "$high"
