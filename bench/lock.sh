#!/bin/sh
# Prints how many enters and leaves of the noted lock there are in a second, the best of five runs: with 1, 2, 4 and
# 64 threads beside the locks of std's Mutex in the same run, with a state of 2 KiB, and by a thread that leaves
# quietly, alone and beside 63 that rest. It wants `rt` on the path.
set -e
cd "$(dirname "$0")/../crates/bench_lock"
rt run > /dev/null 2>&1
exec out/bench_lock time
