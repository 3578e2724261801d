proc inner {} {vwait y; puts inner}
thread::send -async [thread::id] inner
thread::send -async [thread::id] {set x 1; puts x}
thread::send -async [thread::id] {set y 1; puts y}
vwait x
puts done
