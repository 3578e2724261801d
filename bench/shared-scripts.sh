#!/usr/bin/env bash
# Prints the time that an action takes in scripts whose threads share: 200 jobs of a pool that hold a shared array,
# 20,000 increments of a shared counter, 10,000 lines through a pipe between two threads, and 4,000 jobs of a pool. Each
# is replayed by a schedule that is made here; the start of the process and the reading of both files count in.
# If tclsh has its Thread package, the time of the same script in it stands beside each, over as many actions; there
# the threads run as they like, on all processors.
# Further runs differ by what else the machine does.
# Usage: bench/shared-scripts.sh [RUNS]
set -euo pipefail
shopt -s inherit_errexit
cd "$(dirname "$0")/.."
runs=${1:-10}
. bench/lib/scripts.bash

# The time in ns of RUNS runs of a command, whose output must be the wanted line.
time_of() {
    local wanted=$1 begun ended
    shift
    begun=$(date +%s%N)
    for _ in $(seq "$runs"); do "$@" >"$folder/out"; done
    ended=$(date +%s%N)
    echo "$wanted" | cmp - "$folder/out"
    echo $((ended - begun))
}

# A line on the script and the schedule of that name.
report() {
    local name=$1 what=$2 wanted=$3 actions time
    actions=$(awk 'NR > 1 {sum += $2} END {print sum}' "$folder/$name.schedule")
    time=$(time_of "$wanted" ./crates/tclthread/out/tclthread --replay "$folder/$name.schedule" "$folder/$name.tcl")
    printf '%s: %d ns an action' "$what" $((time / runs / actions))
    if [ $beside = yes ]; then
        time=$(time_of "$wanted" tclsh "$folder/$name.tcl")
        printf ', tclsh %d' $((time / runs / actions))
    fi
    printf '\n'
}

# The first two workers are made with the pool, and one more by each of the third and the fourth job. Then all four take
# a job, and do it one after the other: a hold, two increments and the hold's end, and the job is done. The main thread
# looks once, since all jobs are done by then.
cat >"$folder/held.tcl" <<'TCL'
package require Thread
set p [tpool::create -minworkers 2 -maxworkers 4 -initcmd {
    proc work {n} {
        tsv::lock total {
            tsv::incr total sum $n
            tsv::incr total count
        }
        return [expr {$n * $n}]
    }
}]
set jobs {}
for {set i 1} {$i <= 200} {incr i} {
    lappend jobs [tpool::post -nowait $p [list work $i]]
}
set left $jobs
while {[llength $left]} { tpool::wait $p $left left }
set squares 0
foreach j $jobs { incr squares [tpool::get $p $j] }
tpool::release $p
puts "[tsv::get total count] jobs, sum [tsv::get total sum], squares $squares"
TCL
{
    printf '%s\n' 'schedule 1' '1 201'
    for _ in $(seq 50); do printf '%s\n' '2 1' '3 1' '4 1' '5 1' '2 5' '3 5' '4 5' '5 5'; done
    echo '1 206'
} >"$folder/held.schedule"
report held '200 jobs with holds' '200 jobs, sum 20100, squares 2686700'

# 60,006 units are spent, so the thread pauses six times; the last three actions are the counter's, the line and the end.
cat >"$folder/counter.tcl" <<'TCL'
package require Thread
for {set i 0} {$i < 20000} {incr i} {tsv::incr a x}
puts [tsv::get a x]
TCL
printf '%s\n' 'schedule 1' "1 $((20000 + 6 + 3))" >"$folder/counter.schedule"
report counter '20,000 increments' 20000

# Each line is put in one step of the main thread and got in the next one of the other thread. A thread pauses before
# its unit of each multiple of 10,000: it spends three on a line, and has spent 9 + 3 k (the main thread) and 6 + 3 k
# (the other one) when the k-th line is put and got.
cat >"$folder/pipe.tcl" <<'TCL'
package require Thread
set t [thread::create {
    proc count {in} {
        set n 0
        while {[gets $in line] >= 0} {incr n}
        close $in
        return $n
    }
    thread::wait
}]
lassign [chan pipe] in out
thread::transfer $t $in
thread::send -async $t [list count $in] n
for {set i 0} {$i < 10000} {incr i} {puts $out "line $i"}
close $out
vwait n
puts $n
TCL
awk '
    function steps(units) {return 1 + int(units / 10000) - int((units - 3) / 10000)}
    BEGIN {
        print "schedule 1\n1 3\n2 1\n1 3\n2 2"
        for (line = 2; line <= 10000; line++) print "1 " steps(9 + 3 * line) "\n2 " steps(6 + 3 * line)
        print "1 1\n2 3\n1 3"
    }
' >"$folder/pipe.schedule"
report pipe '10,000 lines through a pipe' 10000

# Two workers take a job each, and then end it. The main thread pauses once while it posts and once while it gets.
jobs_script 2 >"$folder/jobs.tcl"
{
    printf '%s\n' 'schedule 1' "1 $((1 + 4000 + 1))"
    for _ in $(seq 2000); do printf '%s\n' '2 1' '3 1' '2 1' '3 1'; done
    echo "1 $((1 + 4000 + 1 + 3))"
} >"$folder/jobs.schedule"
report jobs '4,000 jobs' 168000
