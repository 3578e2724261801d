#!/bin/sh
# Prints the time that reading takes for a byte: a word in braces at 64 KiB, 256 KiB and 1 MiB, with the
# search for its closing brace alone and the scan for special bytes alone; 1 MiB inside 1, 10 and 100
# brackets; bodies of 1 KiB; a script of short commands read command by command; and one command of 1 MiB,
# of short words and of letters. Further runs differ by what else the machine does.
set -eu
cd "$(dirname "$0")/../crates/bench_words"
rt run -- times
