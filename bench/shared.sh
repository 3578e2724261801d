#!/usr/bin/env bash
# Prints the time of requests on what threads share: a send and a take among 10, 100 and 900 threads with 10 and 10,000
# events queued; a lock and an unlock with 1 and 900 threads that wait; a job posted, begun and ended with 10 and 10,000
# queued; and a line of 64 bytes put into a pipe and got, 16,384 of which are 1 MiB, with as many in it or none. Then that
# of increments of shared variables (arrays.sh). From the least to the greatest each may grow by no more than half.
# Further runs differ by what else the machine does.
set -euo pipefail
cd "$(dirname "$0")"
(cd ../crates/bench_shared && rt run -- times requests)
./arrays.sh
