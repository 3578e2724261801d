# Two threads add one to a counter that they share. Each reads it in one step and writes it in another, so one of the
# two may be lost (with tsv::incr it would be one step). Ends with 0 if none was lost, and with 1 if one was.
package require Thread

tsv::set counter n 0
set add {tsv::set counter n [expr {[tsv::get counter n] + 1}]}

set a [thread::create -joinable $add]
set b [thread::create -joinable $add]

thread::join $a
thread::join $b

set n [tsv::get counter n]
puts "the counter is $n"
exit [expr {$n != 2}]
