# Counts the words of its standard input. Two workers count every other line each, and what they found is added up.
package require Thread

set counter {
    proc count {lines} {
        set counts {}
        foreach line $lines {
            foreach word [split $line] {
                if {$word ne {}} {dict incr counts [string tolower $word]}
            }
        }
        return $counts
    }
    thread::wait
}

set workers [dict create 0 [thread::create $counter] 1 [thread::create $counter]]

set parts {}
while {[gets stdin line] >= 0} {
    dict lappend parts [expr {[incr number] % 2}] $line
}

dict for {part lines} $parts {
    thread::send -async [dict get $workers $part] [list count $lines] counts($part)
}

set total {}
foreach part [dict keys $parts] {
    if {![info exists counts($part)]} {vwait counts($part)}
    dict for {word count} $counts($part) {dict incr total $word $count}
}

foreach word [lsort [dict keys $total]] {
    puts "$word [dict get $total $word]"
}
