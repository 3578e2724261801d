# A setting that is read before it is set.
# The main thread makes the worker first, and then sets the level that the worker reads.
# In turn the main thread sets it between the two first steps of the worker, which signs in before it reads.
package require Thread

set worker [thread::create -joinable {
    tsv::incr workers started
    set level [tsv::get settings level]
    tsv::set workers report "level $level"
}]
tsv::set settings level 3
exit [thread::join $worker]
