# A thread that ends while it is sent to.
# Two clients use a server. The first one releases it when it is done, though the second may not have asked yet.
# In turn the second client asks in its second step, just before the first client's third, which is the release.
package require Thread

set server [thread::create]
set first [thread::create -joinable "
    thread::send $server {incr n}
    thread::release $server
"]
set second [thread::create -joinable "
    tsv::incr clients n
    thread::send $server {incr n}
"]
exit [expr {[thread::join $first] + [thread::join $second] != 0}]
