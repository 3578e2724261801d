tsv::set a n 0
set t [thread::create -joinable {for {set i 0} {$i < 1000} {incr i} {tsv::incr a n}}]
for {set i 0} {$i < 1000} {incr i} {tsv::lock a {tsv::lock a {tsv::set a n [expr {[tsv::get a n] + 1}]}}}
thread::join $t
puts [tsv::get a n]
