# A pool whose jobs are all waited for.
# The main thread posts all jobs before it waits, and no job waits for another.
package require Thread

set pool [tpool::create -maxworkers 3]
foreach n {1 2 3 4 5} {lappend jobs [tpool::post -nowait $pool [list expr $n * $n]]}
set left $jobs
while {[llength $left]} {tpool::wait $pool $left left}
set sum 0
foreach job $jobs {incr sum [tpool::get $pool $job]}
tpool::release $pool
exit [expr {$sum != 55}]
