# Two threads take 60 from an account of 100, each if it finds as much. The second one may look before the first one has
# taken.
package require Thread

tsv::set account balance 100
set take {
    if {[tsv::get account balance] >= 60} {
        tsv::incr account balance -60
    }
}
set a [thread::create -joinable $take]
set b [thread::create -joinable $take]
thread::join $a
thread::join $b
puts "the balance is [tsv::get account balance]"
exit [expr {[tsv::get account balance] < 0}]
