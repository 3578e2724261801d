#!/usr/bin/env bash
# Prints what scripts of the language take beside tclsh: turns of loops at global level and in a procedure, fib(23),
# calls, commands that grow and read lists and texts, elements of arrays, commands that evaluate bodies, 100,000 items
# that are sorted, a text that is built and mapped, and four threads that count and never speak. A row has the program's
# cost, tclsh's, the first as a part of the second, and the bound that the part is to keep.
# Costs are the processor's time in microseconds, the least of RUNS runs; with `instructions` in place of RUNS they are
# thousands of instructions as valgrind counts them, which other work on the machine doesn't change, and take some ten
# minutes. Threads are timed by the clock all the same, since they are to go on side by side: their rows need four free
# processors. The start of the process is taken off, and that of the Thread package where threads are made.
#
# It ends with 1 if a row is above its bound. tclsh and its Thread package are needed.
# Usage: bench/language.sh [RUNS|instructions]
set -euo pipefail
shopt -s inherit_errexit
cd "$(dirname "$0")/.."
runs=${1:-5}
. bench/lib/scripts.bash
. bench/lib/costs.bash

if [ $beside = no ]; then
    echo 'tclsh with its Thread package is needed' >&2
    exit 2
fi

# Each row: a name, its bound in hundredths of what tclsh takes, and a script in which N stands for the number of turns.
rows() {
    cat <<'ROWS'
a turn of while at global level|20|set i 0; while {$i < N} {incr i}
a turn of for at global level|20|for {set i 0} {$i < N} {incr i} {}
a turn of while in a procedure|200|proc p {} {set i 0; while {$i < N} {incr i}}; p
a turn of for in a procedure|200|proc p {} {for {set i 0} {$i < N} {incr i} {}}; p
fib(23)|100|proc fib {n} {if {$n < 2} {return $n}; expr {[fib [expr {$n - 1}]] + [fib [expr {$n - 2}]]}}; fib 23
a call of an empty procedure|30|proc p {} {}; for {set i 0} {$i < N} {incr i} {p}
foreach with incr|40|foreach x [lrepeat N 1] {incr t $x}
append|40|for {set i 0} {$i < N} {incr i} {append s abcdefgh}
lappend|40|for {set i 0} {$i < N} {incr i} {lappend l $i}
lindex|40|set l [lrepeat 1000 abc]; for {set i 0} {$i < N} {incr i} {lindex $l 500}
an element that is set|60|for {set i 0} {$i < N} {incr i} {set a(k) $i}
an element that is read|60|set a(k) 1; for {set i 0} {$i < N} {incr i} {set x $a(k)}
catch|100|for {set i 0} {$i < N} {incr i} {catch {set x $i}}
eval|100|for {set i 0} {$i < N} {incr i} {eval {set x $i}}
switch|100|for {set i 0} {$i < N} {incr i} {switch $i 5 {set x five} default {set x $i}}
string match in if|100|for {set i 0} {$i < N} {incr i} {if {[string match *5 $i]} {}}
100,000 items|40|for {set i 0} {$i < 100000} {incr i} {lappend l [expr {$i * 7919 % 100003}]}; set l [lsort -integer $l]; set sum 0; foreach x $l {incr sum $x}; for {set i 0} {$i < 100000} {incr i} {lindex $l $i}
a text|100|for {set i 0} {$i < 20000} {incr i} {append s "line $i of the text, "}; for {set i 0} {$i < 20} {incr i} {string first "line 19999" $s; string map {line row text book} $s; string range $s $i end; string toupper $s}
ROWS
}

# Four threads that count to 1,000,000 each, and wait for nobody.
cat >"$folder/threads.tcl" <<'TCL'
package require Thread
for {set k 0} {$k < 4} {incr k} {
    lappend threads [thread::create -joinable {for {set i 0} {$i < 1000000} {incr i} {}}]
}
foreach t $threads {thread::join $t}
TCL

# The least time of a run of a command by the clock, in microseconds.
clocked() {
    local best='' begun took run
    for ((run = 0; run < runs; run++)); do
        begun=$(date +%s%N)
        "$@" >/dev/null
        took=$((($(date +%s%N) - begun) / 1000))
        if [ -z "$best" ] || [ "$took" -lt "$best" ]; then best=$took; fi
    done
    echo "$best"
}

# A number of hundredths, with its point.
hundredths() {
    printf '%d.%02d' $(($1 / 100)) $(($1 % 100))
}

# A row: its name, its cost and unit, what it is compared with and the cost of that, and its bound.
high=0
report() {
    local name=$1 took=$2 its=$5 bound=$6
    local part=$((100 * took / its))
    printf '%s: %d %s, %s %d; %s, bound %s' \
        "$name" "$took" "$3" "$4" "$its" "$(hundredths $part)" "$(hundredths "$bound")"
    if [ $((100 * took)) -gt $((bound * its)) ]; then
        printf '; above'
        high=$((high + 1))
    fi
    printf '\n'
}

program=./crates/tclthread/out/tclthread
unit=us count=500000
if [ "$runs" = instructions ]; then unit=thousands count=20000 runs=5; fi

: >"$folder/start.tcl"
start=$(cost "$program" "$folder/start.tcl")
its_start=$(cost tclsh "$folder/start.tcl")
while IFS='|' read -r name bound script; do
    took=$(cost_of "$script" $count "$start" "$program")
    its=$(cost_of "$script" $count "$its_start" tclsh)
    report "$name" "$took" $unit tclsh "$its" "$bound"
done < <(rows)

echo 'package require Thread' >"$folder/start.tcl"
start=$(clocked "$program" "$folder/start.tcl")
its_start=$(clocked tclsh "$folder/start.tcl")
one=$(($(clocked "$program" --workers 1 "$folder/threads.tcl") - start))
four=$(($(clocked "$program" --workers 4 "$folder/threads.tcl") - start))
its=$(($(clocked tclsh "$folder/threads.tcl") - its_start))
report 'four threads that count, on four workers' $four us tclsh $its 20
report 'the same beside one worker' $four us 'one worker' $one 40

if [ $high -gt 0 ]; then
    echo "$high rows are above their bound" >&2
    exit 1
fi
