#!/bin/sh
# Prints the time of an increment of one key in a shared array of 10, 1,000 and 100,000 keys, and of a test whether a
# thread waits for it. From the least array to the greatest it may grow by no more than half.
# Further runs differ by what else the machine does.
set -eu
cd "$(dirname "$0")/../crates/bench_shared"
rt run -- times arrays
