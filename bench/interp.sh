#!/usr/bin/env bash
# Prints the time of a turn, for 1,000, 10,000 and 100,000 turns: of `while` with an `incr`, of such a loop with a call
# of an empty procedure, of `foreach`, and of such a loop with an `append` to a growing text or a `lappend` to a growing
# list; the least of five times. If tclsh is installed, the time of the same script in it stands beside each: of a
# loop that it compiles, and of one that it doesn't, since the loop's name stands in a variable.
# Further runs differ by what else the machine does.
# Usage: bench/interp.sh [CASE TURNS]
set -euo pipefail
cd "$(dirname "$0")/../crates/bench_interp"
words=("$@")
if [ $# -eq 0 ]; then words=(times); fi
if ! command -v tclsh >/dev/null; then
    exec rt run -- "${words[@]}"
fi
folder=$(mktemp -d)
trap 'rm -rf "$folder"' EXIT
cat >"$folder/beside.tcl" <<'TCL'
# The scripts of crates/bench_interp; LOOP is the loop's command, and N the number of turns.
array set cases {
    while {set i 0; LOOP {$i < N} {incr i}}
    call {proc p {} {}; set i 0; LOOP {$i < N} {p; incr i}}
    foreach {LOOP x [lrepeat N a] {}}
    append {set i 0; LOOP {$i < N} {append s abcdefgh; incr i}}
    lappend {set i 0; LOOP {$i < N} {lappend l $i; incr i}}
}

proc least {script} {
    set times {}
    for {set round 0} {$round < 5} {incr round} {
        uplevel #0 {unset -nocomplain i l s x}
        # A text that was not evaluated before, so that compiling counts in as reading does in the program.
        set fresh "$script;# $round"
        set start [clock microseconds]
        uplevel #0 [list eval $fresh]
        lappend times [expr {[clock microseconds] - $start}]
    }
    return [lindex [lsort -integer $times] 0]
}

proc turn {case loop turns} {
    set script [string map [list LOOP $loop N $turns] $::cases($case)]
    return [expr {[least $script] * 1000 / $turns}]
}

while {[gets stdin line] >= 0} {
    if {[regexp {^(\w+), (\d+) turns: } $line -> case turns] && $turns > 0} {
        set command [expr {$case eq "foreach" ? "foreach" : "while"}]
        set w $command
        append line ", tclsh [turn $case $command $turns] compiled, [turn $case {$w} $turns] not compiled"
    }
    puts $line
}
TCL
rt run -- "${words[@]}" >"$folder/times"
tclsh "$folder/beside.tcl" <"$folder/times"
