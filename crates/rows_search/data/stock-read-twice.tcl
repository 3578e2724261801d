# A stock that is read twice.
# A buyer reads the stock to test it, and again to lower it. The last piece may be sold twice.
# In turn the list of names takes a step before each start, so the first buyer is done with the stock by then.
package require Thread

tsv::set stock left 1
tsv::set stock sold 0
set buy {
    if {[tsv::get stock left] > 0} {
        tsv::set stock left [expr {[tsv::get stock left] - 1}]
        tsv::incr stock sold
    }
}
foreach name {ann bob} {
    tsv::lappend buyers names $name
    lappend buyers [thread::create -joinable $buy]
}
foreach buyer $buyers {thread::join $buyer}
exit [expr {[tsv::get stock sold] != 1}]
