# A thread that is started twice.
# Each client starts the log's thread if there is none yet: it looks, starts it and keeps its id in three steps.
# In turn the count of clients takes a step before each start, so the first client's id is kept by then.
package require Thread

set client {
    if {![tsv::exists log thread]} {tsv::set log thread [thread::create]}
    thread::send [tsv::get log thread] {incr lines}
}
foreach n {1 2} {
    tsv::incr clients started
    lappend clients [thread::create -joinable $client]
}
foreach each $clients {thread::join $each}
exit [expr {[llength [thread::names]] != 2}]
