# Copies standard input to standard output, each line with its number, and reports their number on standard error.
package require Thread

set n 0

while {[gets stdin line] >= 0} {
    puts "[incr n]\t$line"
}

puts stderr "$n lines"
