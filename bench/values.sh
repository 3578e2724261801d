#!/bin/sh
# Prints the time that commands on lists and texts take for an item or a byte, for sizes that double three times; the
# time that an item read, an item pushed and a copy take of lists of 1,000, 10,000 and 100,000 items that a value keeps;
# and the time that reading and writing one variable takes, among 10, 1,000 and 100,000 others, through no link and
# through ten.
# Further runs differ by what else the machine does.
set -eu
cd "$(dirname "$0")/../crates/bench_values"
rt run -- times commands
rt run -- times values
rt run -- times variables
