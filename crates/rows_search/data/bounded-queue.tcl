# A bounded queue with a mutex and a condition.
# Whoever changes the queue notifies all that wait, and whoever waits tests again after that.
package require Thread

set mutex [thread::mutex create]
set changed [thread::cond create]
tsv::set queue items {}
set consumer {
    proc consume {mutex changed count} {
        for {set i 0} {$i < $count} {incr i} {
            thread::mutex lock $mutex
            while {[tsv::llength queue items] == 0} {thread::cond wait $changed $mutex}
            tsv::incr sum n [tsv::lpop queue items]
            thread::cond notify $changed
            thread::mutex unlock $mutex
        }
    }
}
set one [thread::create -joinable "$consumer; consume $mutex $changed 2"]
set two [thread::create -joinable "$consumer; consume $mutex $changed 2"]
foreach item {1 2 3 4} {
    thread::mutex lock $mutex
    while {[tsv::llength queue items] == 2} {thread::cond wait $changed $mutex}
    tsv::lappend queue items $item
    thread::cond notify $changed
    thread::mutex unlock $mutex
}
thread::join $one
thread::join $two
exit [expr {[tsv::get sum n] != 10}]
