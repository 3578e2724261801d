#!/usr/bin/env bash
# Prints how the time grows from N turns or items to 4 N of them: of reading, cutting and growing a variable's list and
# text, of elements of arrays, of shared lists, and of variables by name. If tclsh is installed, its growth with the same
# script stands beside each, with both times at 4 N and their ratio; for shared lists its Thread package is needed too.
# The start of the process, with that package, is taken off. Times are the processor's, in microseconds, the least of
# RUNS runs; with `instructions` in place of RUNS they are thousands of instructions as valgrind counts them, which other
# work on the machine doesn't change, and take a quarter of an hour. A row of copied bytes or items is timed all the same:
# one instruction may copy many.
#
# It ends with 1 if a row grows more than twice as fast as tclsh's. Of a row that takes tclsh less than ten milliseconds
# instructions alone can tell.
# Usage: bench/growth.sh [N] [RUNS|instructions]
set -euo pipefail
shopt -s inherit_errexit
cd "$(dirname "$0")/.."
few=${1:-5000}
runs=${2:-3}
. bench/lib/scripts.bash
. bench/lib/costs.bash

# Each row: a name, with `timed` before it if instructions don't say what it costs, and a script in which N stands for
# the number.
rows() {
    cat <<'ROWS'
lindex|set l [lrepeat N abc]; for {set i 0} {$i < N} {incr i} {lindex $l $i}
lindex, a list that is a text|set l [string repeat {abc } N]; for {set i 0} {$i < N} {incr i} {lindex $l $i}
a text that is no list|set s [string repeat {ab\{} N]; for {set i 0} {$i < N} {incr i} {string index $s $i}
a text that grows and is read|set s {}; for {set i 0} {$i < N} {incr i} {append s {abc }; string length $s}
llength|set l [lrepeat N abc]; for {set i 0} {$i < N} {incr i} {llength $l}
lrange|set l [lrepeat N abc]; for {set i 0} {$i < N} {incr i} {lrange $l $i $i}
lreplace|set l [lrepeat N abc]; for {set i 0} {$i < 100} {incr i} {set l [lreplace $l $i $i x]}
linsert at the end|set l {}; for {set i 0} {$i < N/10} {incr i} {set l [linsert $l end $i]}
lappend|set l {}; for {set i 0} {$i < N} {incr i} {lappend l $i}
foreach|set l [lrepeat N abc]; for {set i 0} {$i < 20} {incr i} {foreach x $l {}}
lassign|set l [lrepeat N abc]; for {set i 0} {$i < N} {incr i} {lassign $l a b}
timed copies of different items|set l {}; for {set i 0} {$i < N} {incr i} {lappend l item$i}; for {set i 0} {$i < 1000} {incr i} {set q [lassign $l a b]; set q [lrange $l 1 end]; set q [linsert $l end x]}
lrange, one less|set q [lrepeat [expr {N / 10}] abc]; while {[llength $q]} {set q [lrange $q 1 end]}
a procedure given a list|proc p {l} {lindex $l 0}; set l [lrepeat N abc]; for {set i 0} {$i < N} {incr i} {p $l}
string index|set s [string repeat abc N]; for {set i 0} {$i < N} {incr i} {string index $s $i}
string length|set s [string repeat abc N]; for {set i 0} {$i < N} {incr i} {string length $s}
string range|set s [string repeat abc N]; for {set i 0} {$i < N} {incr i} {string range $s $i $i}
elements set|for {set i 0} {$i < N} {incr i} {set a($i) $i}
elements read|for {set i 0} {$i < N} {incr i} {set a($i) $i}; for {set i 0} {$i < N} {incr i} {set a($i)}
elements unset|for {set i 0} {$i < N} {incr i} {set a($i) $i}; for {set i 0} {$i < N} {incr i} {unset a($i)}
tsv::lappend|for {set i 0} {$i < N/4} {incr i} {tsv::lappend t l $i}
tsv::lindex|tsv::set t l [lrepeat N abc]; for {set i 0} {$i < N} {incr i} {tsv::lindex t l $i}
tsv::lpop|tsv::set t l [lrepeat [expr {N / 10}] abc]; for {set i 0} {$i < N/10} {incr i} {tsv::lpop t l}
lsearch over names|set l {}; for {set i 0} {$i < N} {incr i} {lappend l name$i}; for {set i 0} {$i < 100} {incr i} {lsearch -exact $l name[expr {N - 1}]}
variables by name|for {set i 0} {$i < N} {incr i} {set v$i $i}; for {set i 0} {$i < N} {incr i} {set v$i}
timed append of a text to itself|set s abc; while {[string length $s] < 1000 * N} {append s $s}
ROWS
}

# How many times the first number the second is, with one digit after the point.
ratio() {
    echo "$(($2 / $1)).$((10 * $2 / $1 % 10))"
}

# Whether tclsh can run a row of that name.
runs_beside() {
    case $1 in
        tsv::*) [ $beside = yes ] ;;
        *) command -v tclsh >/dev/null ;;
    esac
}

# Whether growth to so many can be told. Times are taken by the millisecond, so those of a few of them can't.
can_be_told() {
    [ "$unit" = thousands ] || [ "$1" -ge 10000 ]
}

program=./crates/tclthread/out/tclthread
units=us
if [ "$runs" = instructions ]; then units=thousands runs=3; fi

fast=0
while IFS='|' read -r name script; do
    unit=$units
    if [[ $name == timed\ * ]]; then unit=us name=${name#timed }; fi
    first=''
    if [[ $name == tsv::* ]]; then first='package require Thread; '; fi
    script=$first$script
    echo "$first" >"$folder/start.tcl"
    start=$(cost "$program" "$folder/start.tcl")
    beside_start=0
    if runs_beside "$name"; then beside_start=$(cost tclsh "$folder/start.tcl"); fi
    one=$(cost_of "$script" "$few" "$start" "$program")
    four=$(cost_of "$script" $((4 * few)) "$start" "$program")
    printf '%s: grows by %s, %d %s' "$name" "$(ratio "$one" "$four")" "$four" $unit
    if runs_beside "$name"; then
        its_one=$(cost_of "$script" "$few" "$beside_start" tclsh)
        its_four=$(cost_of "$script" $((4 * few)) "$beside_start" tclsh)
        printf '; tclsh by %s, %d %s; %s of its' \
            "$(ratio "$its_one" "$its_four")" "$its_four" $unit "$(ratio "$its_four" "$four")"
        if can_be_told "$its_four" && [ $((four * its_one)) -gt $((2 * one * its_four)) ]; then
            printf '; grows too fast'
            fast=$((fast + 1))
        fi
    fi
    printf '\n'
done < <(rows)

if [ $fast -gt 0 ]; then
    echo "$fast rows grow more than twice as fast as tclsh's" >&2
    exit 1
fi
