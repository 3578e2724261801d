#!/bin/sh
# Prints the time that splitting and joining a list, and reading an expression, take for a byte, at 64 KiB,
# 256 KiB and 1 MiB; and reading a chain 1+1+.. of 1 KiB, 64 KiB and 1 MiB.
# Further runs differ by what else the machine does.
set -eu
cd "$(dirname "$0")/../crates/bench_values"
rt run -- times lists
