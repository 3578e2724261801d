# The last item of a queue, taken by two.
# Two workers each look whether there is an item, take one, and note it, in a step each. The items are lines of input.
# In turn the second worker is one step behind the first, so neither takes an item between the other's look and take.
package require Thread

while {[gets stdin line] >= 0} {tsv::lappend queue items $line}
set work {
    while {[tsv::llength queue items] > 0} {
        tsv::lappend done items [tsv::lpop queue items]
    }
}
set a [thread::create -joinable $work]
set b [thread::create -joinable $work]
thread::join $a
thread::join $b
exit [expr {[tsv::llength done items] != 4}]
