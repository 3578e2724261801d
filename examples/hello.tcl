package require Thread

puts hi
puts {hello from tclthread}
