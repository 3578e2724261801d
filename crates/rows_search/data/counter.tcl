# A counter that each addition raises in one step.
# The main thread reads it after the ends of all that add.
package require Thread

set add {
    for {set i 0} {$i < 5} {incr i} {tsv::incr counter n}
}
foreach k {1 2 3} {lappend threads [thread::create -joinable $add]}
foreach t $threads {thread::join $t}
exit [expr {[tsv::get counter n] != 15}]
