# A message that overtakes others by -head.
# Rows are sent to a store, and the order to save them goes to the head of its queue, before rows not yet taken.
# In turn the store takes each row in the step after it was sent.
package require Thread

set store [thread::create {
    set rows {}
    proc add {row} {global rows; lappend rows $row}
    proc save {} {global rows; tsv::set saved rows $rows}
    thread::wait
}]
thread::send -async $store {add 1}
thread::send -async $store {add 2}
thread::send -async -head $store save
thread::release -wait $store
exit [expr {[tsv::get saved rows] ne {1 2}}]
