# A pipeline of three threads: a producer writes requests, a filter passes on those of one kind, and the main thread
# prints them as they come. The pipes are made here, and each end goes to the thread that uses it.
package require Thread

set producer [thread::create {
    proc produce {out} {
        foreach request {{GET /} {PUT /data} {GET /help}} {puts $out $request}
        close $out
    }
    thread::wait
}]

set filter [thread::create {
    proc pass {pattern in out} {
        while {[gets $in line] >= 0} {
            if {[string match $pattern $line]} {puts $out $line}
        }
        close $in
        close $out
    }
    thread::wait
}]

lassign [chan pipe] in1 out1
lassign [chan pipe] in2 out2

thread::transfer $producer $out1
thread::transfer $filter $in1
thread::transfer $filter $out2

thread::send -async $producer [list produce $out1]
thread::send -async $filter [list pass {GET *} $in1 $out2]

while {[gets $in2 line] >= 0} {
    puts "[incr count]. $line"
}

puts "$count were passed"
