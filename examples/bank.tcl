# Two tellers move money between accounts that they share. Each transfer holds the accounts, so that no sum is seen on
# its way; one that an account doesn't cover ends with an error, and so does its hold.
package require Thread

tsv::array set accounts {ann 100 bob 50}

set teller {
    proc transfer {from to amount} {
        tsv::lock accounts {
            set rest [expr {[tsv::get accounts $from] - $amount}]
            if {$rest < 0} {error "$from lacks [expr {-$rest}]"}
            tsv::set accounts $from $rest
            tsv::incr accounts $to $amount
        }
        return "$from paid $amount to $to"
    }
    thread::wait
}

set first [thread::create $teller]
set second [thread::create $teller]

thread::send -async $first {transfer ann bob 70} done(first)
thread::send -async $second {transfer bob ann 110} done(second)

foreach who {first second} {
    if {![info exists done($who)]} {vwait done($who)}
    puts "$who: $done($who)"
}

puts "ann has [tsv::get accounts ann], bob has [tsv::get accounts bob]"
