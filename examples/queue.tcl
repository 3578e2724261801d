# A queue of at most two items between two threads: the producer waits while it is full, and the consumer while it is
# empty. Whoever changes it notifies the other.
package require Thread

set mutex [thread::mutex create]
set changed [thread::cond create]
tsv::set queue items {}

set producer [thread::create {
    proc produce {mutex changed items} {
        foreach item $items {
            thread::mutex lock $mutex
            while {[tsv::llength queue items] == 2} {thread::cond wait $changed $mutex}
            tsv::lappend queue items $item
            thread::cond notify $changed
            thread::mutex unlock $mutex
        }
    }
    thread::wait
}]

thread::send -async $producer [list produce $mutex $changed {bread milk eggs salt}]

for {set n 1} {$n <= 4} {incr n} {
    thread::mutex lock $mutex
    while {[tsv::llength queue items] == 0} {thread::cond wait $changed $mutex}
    set item [tsv::lpop queue items]
    thread::cond notify $changed
    thread::mutex unlock $mutex
    puts "$n: $item"
}
