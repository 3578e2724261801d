# The errors of scripts that nobody waits for go to an error procedure, which writes a line for each.
package require Thread

proc report {id trace} {
    global failed
    incr failed
    puts "$id failed: [lindex [split $trace \n] 0]"
}

thread::errorproc report

set t [thread::create]
thread::send $t {proc divide {a b} {puts [expr {$a / $b}]}}

foreach {a b} {10 2 1 0 7 x} {
    thread::send -async $t [list divide $a $b]
}
thread::send $t {}
update

puts "$failed of 3 failed"
