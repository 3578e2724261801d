# A lost update, in one addition of ten.
# Two threads add ten each to a counter. One addition of ten reads it in one step and writes it in the next.
# In turn the second thread is one step behind the first, so a tally alone falls between a read and its write.
package require Thread

tsv::set counter n 0
set add {
    for {set i 1} {$i <= 10} {incr i} {
        tsv::incr tally [thread::id]
        if {$i == 4} {
            tsv::set counter n [expr {[tsv::get counter n] + 1}]
        } else {
            tsv::incr counter n
        }
    }
}
set a [thread::create -joinable $add]
set b [thread::create -joinable $add]
thread::join $a
thread::join $b
exit [expr {[tsv::get counter n] != 20}]
