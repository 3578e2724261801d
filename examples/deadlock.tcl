# Two threads take the same two mutexes, each in another order. If each has one before either has both, each waits for
# the other, and neither goes on.
package require Thread

set first [thread::mutex create]
set second [thread::mutex create]

set taker {
    proc take {one other} {
        thread::mutex lock $one
        puts "[thread::id] has $one"
        thread::mutex lock $other
        puts "[thread::id] has both"
        thread::mutex unlock $other
        thread::mutex unlock $one
    }
    thread::wait
}

set a [thread::create $taker]
set b [thread::create $taker]

thread::send -async $a [list take $first $second] done
thread::send -async $b [list take $second $first] done

vwait done
vwait done
puts "both are through"
