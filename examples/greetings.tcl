# Two threads write a line each, when they get to it. The main thread waits for their ends.
package require Thread

set first [thread::create]
set second [thread::create]

thread::send -async $first {puts "hello from [thread::id]"}
thread::send -async $second {puts "hello from [thread::id]"}
puts {main has sent both}

thread::release -wait $first
thread::release -wait $second
