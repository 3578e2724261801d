# A worker adds up the numbers that it is sent. The main thread goes on, and hears the sum when it comes.
package require Thread

set worker [thread::create {
    set sum 0
    proc add {n} {
        global sum
        incr sum $n
    }
    thread::wait
    puts "the worker ends with $sum"
}]

foreach n {3 1 4 1 5} {
    thread::send -async $worker [list add $n]
}
thread::send -async $worker {set sum} total

puts {all is sent}
vwait total
puts "the sum is $total"

thread::release -wait $worker
