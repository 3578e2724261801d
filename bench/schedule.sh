#!/usr/bin/env bash
# Prints what a schedule of 16,777,216 steps takes, the most that there may be, in both extremes: steps of one thread,
# which are one row, and steps of two threads in turn, which are as many rows as steps. It is pushed step by step, read
# from its text, and printed; each time in a process of its own, of which the most resident memory is reported, less that of
# one that does nothing. Reading holds the text too, and printing the text and the schedule. Then the time a word in
# which command lines are read. It wants `rt` on the path; memory is reported if there is a command `time`.
set -euo pipefail
cd "$(dirname "$0")/../crates/bench_schedule"
rt run >/dev/null
folder=$(mktemp -d)
trap 'rm -rf "$folder"' EXIT

# Does one thing, and leaves its most resident memory, in KiB, in a file.
run() {
    if type -P time >/dev/null; then
        command time -f %M -o "$folder/memory" out/bench_schedule "$@"
    else
        out/bench_schedule "$@"
        echo 0 >"$folder/memory"
    fi
}

run start
start=$(tail -n 1 "$folder/memory")
for action in push read print; do
    for shape in '' turns; do
        # Without a shape the steps are of one thread.
        line=$(run "$action" ${shape:+"$shape"})
        took=$(($(tail -n 1 "$folder/memory") - start))
        echo "$action, ${shape:-one thread}: $line, $((took / 1024)) MiB"
    done
done
run words
