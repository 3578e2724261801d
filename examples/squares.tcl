# Writes the square of each argument. Each one is worked out by a thread of its own, beside the others.
package require Thread

foreach n $argv {
    thread::send -async [thread::create] [list expr $n * $n] square($n)
}

foreach n $argv {
    if {![info exists square($n)]} {vwait square($n)}
    puts "$n squared is $square($n)"
}
