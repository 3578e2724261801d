# A job that waits for another job of its pool.
# Each of two jobs posts a part and waits for it. If both are begun before a part is, no worker is left for the parts.
# In turn the count falls between the two posts, and meanwhile the first job posts its part, which is taken next.
package require Thread

set pool [tpool::create -minworkers 2 -maxworkers 2 -initcmd {
    proc whole {pool} {
        set part [tpool::post -nowait $pool {tsv::incr parts done}]
        tpool::wait $pool $part
    }
}]
set first [tpool::post -nowait $pool [list whole $pool]]
tsv::incr wholes posted
set second [tpool::post -nowait $pool [list whole $pool]]
tpool::wait $pool $first
tpool::wait $pool $second
exit [expr {[tsv::get parts done] != 2}]
