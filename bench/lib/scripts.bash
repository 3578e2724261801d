# What the benches of whole scripts share, to be read by them from the top of the repository: a folder that goes with the
# shell, whether tclsh has its Thread package, the program, built if that is needed, and a script of jobs.
folder=$(mktemp -d)
trap 'rm -rf "$folder"' EXIT

beside=no
if command -v tclsh >/dev/null && echo 'exit [catch {package require Thread}]' | tclsh; then beside=yes; fi

./tclthread --replay examples/hello.schedule examples/hello.tcl >/dev/null

# Prints a script of 4,000 jobs on a pool of so many workers. It writes 168000.
jobs_script() {
    cat <<TCL
package require Thread
set p [tpool::create -minworkers $1 -maxworkers $1]
for {set i 0} {\$i < 4000} {incr i} {lappend jobs [tpool::post -nowait \$p {expr 6 * 7}]}
set left \$jobs
while {[llength \$left]} {tpool::wait \$p \$left left}
set sum 0
foreach j \$jobs {incr sum [tpool::get \$p \$j]}
tpool::release \$p
puts \$sum
TCL
}
