# Two messages of two senders.
# One thread opens the log and another one writes to it. Nothing makes the second message come after the first.
# In turn the opener, which is made first, sends in its first step, and the writer sends in its third.
package require Thread

set log [thread::create {
    proc begin {} {global lines; set lines {}}
    proc add {line} {
        global lines
        if {![info exists lines]} {exit 1}
        lappend lines $line
    }
    thread::wait
}]
set opener [thread::create -joinable [list thread::send -async $log begin]]
set writer [thread::create -joinable "
    tsv::incr writers n
    tsv::set writers last pen
    thread::send -async $log {add hello}
"]
thread::join $opener
thread::join $writer
thread::send $log {}
exit 0
