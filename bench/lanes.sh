#!/bin/sh
# Prints the time that each lane kernel takes for a byte, and that of a loop over the bytes with the
# same answer, over 1 MiB. Further runs differ by what else the machine does.
set -eu
cd "$(dirname "$0")/../crates/bench_words"
rt run -- lanes
