# Two mutexes that are locked in opposite orders.
# Each thread locks the account that it takes from first. Two that move money both ways may wait for each other.
# In turn the first thread has both mutexes before the second, made one step later, asks for its first.
package require Thread

set ann [thread::mutex create]
set bob [thread::mutex create]
set move {
    proc move {from to} {
        thread::mutex lock $from
        thread::mutex lock $to
        tsv::incr moves n
        thread::mutex unlock $to
        thread::mutex unlock $from
    }
}
set there [thread::create -joinable "$move; move $ann $bob"]
set back [thread::create -joinable "$move; move $bob $ann"]
thread::join $there
thread::join $back
exit [expr {[tsv::get moves n] != 2}]
