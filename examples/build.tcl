# Builds targets on a pool of two workers: each is posted as soon as all that it is made of is built, and what is built
# meanwhile is reported in the order in which it is done.
package require Thread

array set needs {app {main.o lib.o} main.o main.c lib.o lib.c tests {app lib.o}}
set built {main.c lib.c}

set pool [tpool::create -maxworkers 2 -initcmd {
    proc build {target inputs} {return "$target is made of [join $inputs {, }]"}
}]

while {[array size needs] || [array size running]} {
    foreach target [lsort [array names needs]] {
        set ready 1
        foreach input $needs($target) {
            if {$input ni $built} {set ready 0}
        }
        if {$ready} {
            set running([tpool::post $pool [list build $target $needs($target)]]) $target
            unset needs($target)
        }
    }
    foreach job [tpool::wait $pool [array names running]] {
        puts [tpool::get $pool $job]
        lappend built $running($job)
        unset running($job)
    }
}

tpool::release $pool
