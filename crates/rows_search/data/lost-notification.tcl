# A condition that is notified before it is waited for.
# The worker waits without a look whether the job is there, so a notification that comes before is lost.
# In turn the worker takes the mutex and waits in two steps, and the text of the job takes a step between them.
package require Thread

set mutex [thread::mutex create]
set posted [thread::cond create]
set worker [thread::create -joinable "
    thread::mutex lock $mutex
    thread::cond wait $posted $mutex
    tsv::incr jobs done
    thread::mutex unlock $mutex
"]
tsv::set jobs text {count to three}
thread::mutex lock $mutex
tsv::incr jobs posted
thread::cond notify $posted
thread::mutex unlock $mutex
thread::join $worker
exit [expr {[tsv::get jobs done] != 1}]
