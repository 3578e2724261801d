package require Thread
set p [tpool::create -minworkers 2 -maxworkers 4 -initcmd {
    proc work {n} {
        tsv::lock total {
            tsv::incr total sum $n
            tsv::incr total count
        }
        return [expr {$n * $n}]
    }
}]
set jobs {}
for {set i 1} {$i <= 5} {incr i} {
    lappend jobs [tpool::post -nowait $p [list work $i]]
}
set left $jobs
while {[llength $left]} { tpool::wait $p $left left }
set squares 0
foreach j $jobs { incr squares [tpool::get $p $j] }
tpool::release $p
puts "[tsv::get total count] jobs, sum [tsv::get total sum], squares $squares"
