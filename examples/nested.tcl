# An event loop in an event: the outer wait ends only after the inner one, although its variable is written first.
package require Thread

proc ask {question} {
    global answer
    puts "$question?"
    vwait answer
    puts "$question: $answer"
}

set me [thread::id]
thread::send -async $me {ask name}
thread::send -async $me {set done 1; puts {done is written}}
thread::send -async $me {set answer tcl}

vwait done
puts {the main script goes on}
