#!/usr/bin/env bash
# Runs the program on scripts, schedules and input at their limits and past them, each in at most a minute and 1 GiB of
# addresses (or as much as the line says). Prints the time and the memory of each; ends with an error if one ended
# otherwise than the manual page and the definitions say. With WORD only those whose name has that word.
# Usage: checks/hostile-texts.sh [WORD]
set -euo pipefail
cd "$(dirname "$0")/.."
word=${1:-}
folder=$(mktemp -d)
trap 'rm -rf "$folder"' EXIT
./tclthread --replay examples/hello.schedule examples/hello.tcl >/dev/null
program=$PWD/crates/tclthread/out/tclthread
cd "$folder"
failed=0 gib=1
: >empty
: >input

# Runs the program with the words after the third, on the file `input`: how it is named, the exit code that is wanted, and
# how what it writes begins, standard output without its zero bytes before standard error.
check() {
    local name=$1 wanted=$2 begins=$3 code=0 took
    shift 3
    case $name in *"$word"*) ;; *) return ;; esac
    (ulimit -v $((gib << 20)) && exec timeout 60 /usr/bin/env time -f '%e s, %M KiB' -o took "$program" "$@") \
        <input >out 2>err || code=$?
    took=$(tail -n 1 took)
    if [ "$code" -eq "$wanted" ] && [[ $(head -c 200 out | tr -d '\0')$(head -c 200 err) == "$begins"* ]]; then
        echo "$name: as it has to be ($took)"
    else
        echo "$name: NOT as it has to be: code $code, $(head -c 100 out)$(head -c 200 err) ($took)"
        failed=1
    fi
}

# Prints a text in so many lines. That `yes` is cut off is no error.
lines() {
    { yes "$2" || true; } | head -n "$1"
}

# Prints a text so many times.
times() {
    lines "$1" "$2" | tr -d '\n'
}

# ---- schedules

{ echo 'schedule 1' && lines 16777216 $'1 1\n2 1'; } >long
check 'a schedule of 16,777,216 lines' 108 'tclthread: bad schedule at entry 2' --replay long empty
echo '1 1' >>long
check 'a schedule of one line more' 108 'tclthread: bad schedule at byte 67108875' --replay long empty
{ echo 'schedule 1' && head -c 268435445 /dev/zero; } >bytes
check 'a schedule of 268,435,456 bytes' 108 'tclthread: bad schedule at byte 11' --replay bytes empty
printf x >>bytes
check 'a schedule of one byte more' 104 'tclthread: read fault' --replay bytes empty
check 'a script of 268,435,457 bytes' 104 'tclthread: read fault' bytes
rm long bytes

# ---- scripts of 16 MiB

letters() { head -c "$1" /dev/zero | tr '\0' a; }

{ printf 'puts [string length ' && letters 16777216 && printf ']'; } >script
check 'a word of 16 MiB' 0 16777216 script
{ printf 'set ' && letters 16777216 && printf ' 7; puts [llength [info procs]]'; } >script
check 'a name of 16 MiB' 0 0 script
{ printf 'puts [llength {' && times 8388608 'a ' && printf '}]'; } >script
check 'a list of 16 MiB' 0 8388608 script
{ printf 'puts [string length {' && times 8388608 '{' && times 8388608 '}' && printf '}]'; } >script
check 'braces in braces of 16 MiB' 0 16777216 script
{ printf 'puts ' && times 16777216 '{'; } >script
check 'open braces of 16 MiB' 1 'missing close-brace' script
{ printf 'puts ' && times 16777216 '['; } >script
check 'open brackets of 16 MiB' 1 'nested too deeply' script
{ printf 'puts "' && times 8388608 '[a'; } >script
check 'open brackets in quotes of 16 MiB' 1 'nested too deeply' script
{ printf 'puts ' && times 8388608 '["'; } >script
check 'open quotes in brackets of 16 MiB' 1 'nested too deeply' script
# shellcheck disable=SC2016
{ printf 'puts ' && times 5592404 '$a('; } >script
check 'open indices of 16 MiB' 1 'nested too deeply' script
{ printf 'puts [catch {expr {1' && times 8388608 '+1' && printf '}}]'; } >script
check 'an expression of 16 MiB' 0 1 script
{ printf 'puts [catch {expr {' && times 16777216 '(' && printf '}}]'; } >script
# The reader of expressions keeps each open parenthesis, in some 110 bytes.
gib=2 check 'open parentheses of 16 MiB' 0 1 script
{ times 4194304 'a;;;'; } >script
check 'a script of 16 MiB of commands that are not there' 1 'invalid command name "a"' script
# shellcheck disable=SC2016
{ times 8388608 '$a'; } >script
check 'variables of 16 MiB' 1 "can't read \"a\"" script
{ printf 'puts [string length "' && times 4194304 '\x41' && printf '"]'; } >script
check 'backslash sequences of 16 MiB' 0 4194304 script
{ times 16777215 '#' && printf '\nputs a'; } >script
check 'a comment of 16 MiB' 0 a script

# ---- texts that a script makes

cat >script <<'TCL'
set s [string repeat a 268435456]
puts [string length $s]
TCL
check 'a text at its greatest length' 0 268435456 script
cat >script <<'TCL'
puts "[catch {string repeat a 268435457} e] $e"
TCL
check 'a text past its greatest length' 0 '1 result too long' script
cat >script <<'TCL'
set t [thread::create]
puts "[catch {thread::send $t {string repeat a 268435457}} e] $e"
puts [thread::send $t [list string length [string repeat a 268435456]]]
TCL
check 'such texts in a send' 0 $'1 result too long\n268435456' script
cat >script <<'TCL'
tsv::set a b [string repeat a 268435456]
puts "[catch {tsv::set a b [string repeat a 268435457]} e] $e"
tsv::append a b c
puts [string length [tsv::get a b]]
TCL
check 'such texts that are shared' 0 $'1 result too long\n268435457' script
for count in 268435456 100000000; do
    cat >script <<TCL
lassign [chan pipe] r w
puts -nonewline \$w [string repeat a $count]
close \$w
puts [string length [gets \$r]]
TCL
    check "$count bytes through a pipe, with no newline" 0 "$count" script
done
cat >script <<'TCL'
set x a
for {set i 0} {$i < 10000} {incr i} {set x [list $x b]}
puts [string length $x]
TCL
check '10,000 lists, each in the next' 0 39999 script
cat >script <<'TCL'
proc p0 {} {error oops}
for {set i 1} {$i <= 332} {incr i} {proc p$i {} [list p[expr {$i - 1}]]}
catch p332
puts "[llength [split $errorInfo \n]] [string range $errorInfo 0 3]"
TCL
check 'a trace of 1,002 lines' 0 '1002 oops' script

cat >script <<'TCL'
for {set i 0} {$i < 10000} {incr i} {lappend names p$i; lappend values $i}
proc f $names {return "$p0 $p9999"}
puts [f {*}$values]
TCL
check 'a procedure of 10,000 parameters' 0 '0 9999' script

# ---- names with a zero byte and bytes that are no UTF-8

name='n\377\200\000e'
# The dollars are Tcl's, and the name is a part of each format.
# shellcheck disable=SC2059
{
    printf "set {$name} 1; incr {$name}; puts \${$name}\n"
    printf "set a($name) 2; puts \$a($name)[array names a $name]\n"
    printf "proc {$name} {{$name}} {return \${$name}}; puts [{$name} 3]\n"
    printf "tsv::set {$name} {$name} 4; puts [tsv::get {$name} {$name}]\n"
    printf "puts [thread::send [thread::create] [list set {$name} 5]]\n"
    printf "dict set d {$name} 6; puts [dict get \$d {$name}]\n"
    printf "upvar 0 {$name} z; puts \$z\n"
    printf "puts [catch {{$name}x} e][catch {thread::mutex lock {$name}} e][catch {puts {$name} y} e]\n"
} >script
check 'such names of variables, elements, procedures, shared variables, keys and ids' 0 \
    $'2\n2n\377\200e\n3\n4\n5\n6\n2\n111' script

# ---- threads, posts and jobs

cat >script <<'TCL'
for {set i 0} {$i < 999} {incr i} {lappend all [thread::create -joinable]}
puts "[catch {thread::create} e] $e"
foreach t $all {thread::release $t; thread::join $t}
for {set i 0} {$i < 999} {incr i} {set last [thread::create]}
puts "$last [catch {thread::create} e] $e"
TCL
check '999 threads, ended and made again' 0 $'1 too many threads\ntid1999 1 too many threads' script
cat >script <<'TCL'
for {set i 0} {$i < 99} {incr i} {thread::create}
set p [tpool::create -minworkers 900 -maxworkers 900]
puts "[catch {thread::create} e] $e"
set j [tpool::post $p {expr 6 * 7}]
tpool::wait $p $j
puts [tpool::get $p $j]
TCL
check 'a pool of 900 workers beside 100 threads' 0 $'1 too many threads\n42' script
cat >script <<'TCL'
set me [thread::id]
for {set i 0} {$i < 1000000} {incr i} {thread::send -async $me {incr n}}
update
puts $n
TCL
check 'a queue of 1,000,000 posts' 0 1000000 script

# ---- input

cat >script <<'TCL'
puts [string length [gets stdin]]
puts [string length [gets stdin]]
TCL
{ letters 16777216 && echo && echo b; } >input
check 'a line of input of 16,777,216 bytes' 0 $'16777216\n1' script
cat >script <<'TCL'
puts "[catch {gets stdin} e] $e"
TCL
{ letters 16777217 && echo && echo b; } >input
check 'a line of input of one byte more' 0 '1 line too long' script
head -c 1000000 /dev/zero >input
cat >script <<'TCL'
puts [string length [gets stdin]]
TCL
check 'input of zero bytes' 0 1000000 script

# ---- commands of a debugging session

printf 'schedule 1\n1 2\n' >schedule
echo 'tsv::set a k [string repeat x 10000000]' >script
session=(--replay schedule --debug commands script)
lines 150000 'step 1' >commands
check '1 MiB of steps in a debugging session' 0 $'at 1\nat 2\nat 2' "${session[@]}"
letters 16777216 >commands
check 'a command of 16 MiB' 0 'unknown command' "${session[@]}"
printf 'threads\0\n\0\nbytes\n' >commands
check 'commands with zero bytes' 0 $'unknown command\nunknown command\nout 0 err 0' "${session[@]}"
printf 'step 1\narray a\n' >commands
check 'an array of 10 MB in a debugging session' 0 $'at 1\nk xxx' "${session[@]}"
exit "$failed"
