# A balance that is read outside of the lock.
# A payment tests the balance before it locks the accounts, and then writes what it has read less the amount.
# In turn the first payment has locked the accounts before the second one reads, and that read waits for the lock.
package require Thread

tsv::array set accounts {ann 100 bob 0 eve 0}
set pay {
    proc pay {from to amount} {
        set balance [tsv::get accounts $from]
        if {$balance < $amount} {error "$from lacks [expr {$amount - $balance}]"}
        tsv::lock accounts {
            tsv::set accounts $from [expr {$balance - $amount}]
            tsv::incr accounts $to $amount
        }
    }
}
set first [thread::create -joinable "$pay; pay ann bob 60"]
set second [thread::create -joinable "$pay; pay ann eve 30"]
thread::join $first
thread::join $second
set sum 0
foreach {who balance} [tsv::array get accounts] {incr sum $balance}
exit [expr {$sum != 100}]
