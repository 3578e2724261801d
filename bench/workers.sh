#!/usr/bin/env bash
# Prints the time that scripts of several threads take with 1, 2 and 4 workers, the entries that are recorded in a second,
# and the greatest resident memory; the least time of RUNS: four threads that each count and never speak; 30,000 sends
# with an answer; 50,000 without one; 4,000 jobs of a pool; 400 threads that are sent five scripts each; four threads at
# one mutex, 20,000 times; and a script of one thread, with 64 workers too. The start of the process counts in.
# If tclsh has its Thread package, the same script in it stands beside each; if tclsh is there at all, so does what
# 400 interpreters take in it, since each of its threads has one.
# Further runs differ by what else the machine does.
# Usage: bench/workers.sh [RUNS]
set -euo pipefail
shopt -s inherit_errexit
cd "$(dirname "$0")/.."
runs=${1:-5}
. bench/lib/scripts.bash

# The least time in ms of RUNS runs of a command, and the greatest memory in KiB; its output must be the wanted line.
least() {
    local wanted=$1 best='' most=0 begun ended memory
    shift
    for _ in $(seq "$runs"); do
        begun=$(date +%s%N)
        command time -f %M -o "$folder/memory" "$@" >"$folder/out"
        ended=$(date +%s%N)
        echo "$wanted" | cmp - "$folder/out"
        memory=$(tail -n 1 "$folder/memory")
        if [ "$memory" -gt "$most" ]; then most=$memory; fi
        if [ -z "$best" ] || [ $((ended - begun)) -lt "$best" ]; then best=$((ended - begun)); fi
    done
    echo "$((best / 1000000)) $most"
}

# A line on the script of that name with each of these counts of workers.
report() {
    local name=$1 what=$2 wanted=$3 workers entries time memory
    shift 3
    printf '%s:' "$what"
    for workers in "$@"; do
        read -r time memory <<<"$(least "$wanted" ./crates/tclthread/out/tclthread --workers "$workers" \
            --record "$folder/$name.schedule" "$folder/$name.tcl")"
        entries=$(awk 'NR > 1 {sum += $2} END {print sum}' "$folder/$name.schedule")
        printf ' %d workers %d ms, %d entries a second, %d KiB;' "$workers" "$time" \
            $((entries * 1000 / (time > 0 ? time : 1))) "$memory"
    done
    if [ $beside = yes ]; then
        read -r time memory <<<"$(least "$wanted" tclsh "$folder/$name.tcl")"
        printf ' tclsh %d ms, %d KiB' "$time" "$memory"
    fi
    printf '\n'
}

cat >"$folder/silent.tcl" <<'TCL'
package require Thread
for {set k 0} {$k < 4} {incr k} {
    lappend threads [thread::create -joinable {
        for {set i 0} {$i < 1000000} {incr i} {}
    }]
}
foreach t $threads {thread::join $t}
puts counted
TCL
report silent 'four threads that never speak' counted 1 2 4

cat >"$folder/sends.tcl" <<'TCL'
package require Thread
set t [thread::create]
for {set i 0} {$i < 30000} {incr i} {set n [thread::send $t {incr n}]}
puts $n
TCL
report sends '30,000 sends with an answer' 30000 1 2 4

cat >"$folder/posts.tcl" <<'TCL'
package require Thread
set t [thread::create]
for {set i 0} {$i < 50000} {incr i} {thread::send -async $t {incr n}}
puts [thread::send $t {set n}]
TCL
report posts '50,000 sends without one' 50000 1 2 4

jobs_script 4 >"$folder/jobs.tcl"
report jobs '4,000 jobs of a pool' 168000 1 2 4

cat >"$folder/many.tcl" <<'TCL'
package require Thread
for {set k 0} {$k < 400} {incr k} {lappend threads [thread::create]}
for {set round 0} {$round < 5} {incr round} {
    foreach t $threads {thread::send -async $t {tsv::incr total count}}
}
foreach t $threads {thread::send $t {}}
puts [tsv::get total count]
TCL
report many '400 threads sent five scripts each' 2000 1 2 4
if command -v tclsh >/dev/null; then
    # A thread of tclsh has an interpreter of its own, at least.
    echo 'for {set k 0} {$k < 400} {incr k} {interp create}; puts made' >"$folder/interps.tcl"
    read -r time memory <<<"$(least made tclsh "$folder/interps.tcl")"
    printf '400 interpreters in tclsh, one thread: %d ms, %d KiB\n' "$time" "$memory"
fi

cat >"$folder/mutex.tcl" <<'TCL'
package require Thread
set m [thread::mutex create]
tsv::set total mutex $m
for {set k 0} {$k < 4} {incr k} {
    lappend threads [thread::create -joinable {
        set m [tsv::get total mutex]
        for {set i 0} {$i < 5000} {incr i} {
            thread::mutex lock $m
            tsv::incr total count
            thread::mutex unlock $m
        }
    }]
}
foreach t $threads {thread::join $t}
puts [tsv::get total count]
TCL
report mutex 'four threads at one mutex, 20,000 times' 20000 1 2 4

cat >"$folder/alone.tcl" <<'TCL'
for {set i 0} {$i < 2000000} {incr i} {}
puts $i
TCL
report alone 'a script of one thread' 2000000 1 64
