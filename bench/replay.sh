#!/usr/bin/env bash
# Prints the time that an entry of a schedule takes to replay, less the start of the process: for 100, 300 and 900
# threads that are each sent one script; for 1,000, 10,000 and 100,000 requests of one thread; and for lines of 64 bytes
# read from 1 MiB and 16 MiB of standard input. The time may grow by no more than half from the first to the last of
# each. Then the resident memory that each of 900 waiting threads takes, which may be 40 KiB.
# Usage: bench/replay.sh [RUNS]
set -euo pipefail
cd "$(dirname "$0")/.."
runs=${1:-5}
folder=$(mktemp -d)
trap 'rm -rf "$folder"' EXIT
program=./crates/tclthread/out/tclthread

# Builds the program if it is needed.
./tclthread --replay examples/hello.schedule examples/hello.tcl >/dev/null

# The least time of a replay, in nanoseconds.
least() {
    local name=$1 input=$2 best=0 begun took
    for _ in $(seq "$runs"); do
        begun=$(date +%s%N)
        "$program" --replay "$folder/$name.schedule" "$folder/$name.tcl" <"$input" >"$folder/out"
        took=$(($(date +%s%N) - begun))
        if [ "$best" -eq 0 ] || [ "$took" -lt "$best" ]; then best=$took; fi
    done
    echo "$best"
}

printf '' >"$folder/empty.tcl"
printf 'schedule 1\n1 1\n' >"$folder/empty.schedule"
start=$(least empty /dev/null)

# Prints the time an entry of a replay.
entries() {
    local what=$1 name=$2 input=$3 count=$4 took
    took=$(least "$name" "$input")
    echo "$what: $(((took - start) / count)) ns an entry"
}

for threads in 100 300 900; do
    {
        for _ in $(seq "$threads"); do echo 'thread::create'; done
        for number in $(seq 2 $((threads + 1))); do echo "thread::send -async tid$number {puts line$number}"; done
    } >"$folder/threads.tcl"
    {
        echo 'schedule 1'
        echo "1 $((2 * threads))"
        for number in $(seq 2 $((threads + 1))); do echo "$number 2"; done
        echo '1 1'
    } >"$folder/threads.schedule"
    entries "$threads threads" threads /dev/null $((4 * threads + 1))
    seq -f 'line%.0f' 2 $((threads + 1)) | cmp - "$folder/out"
done

# Of a turn two units are spent, and two before the first one; each 10,000th comes after a pause, which is an entry.
for count in 1000 10000 100000; do
    echo "foreach x [lrepeat $count x] {thread::exists tid1}" >"$folder/one.tcl"
    total=$((count + (2 * count + 2) / 10000 + 1))
    printf 'schedule 1\n1 %d\n' "$total" >"$folder/one.schedule"
    entries "$count requests of one thread" one /dev/null "$total"
done

for mebibytes in 1 16; do
    lines=$((mebibytes * 16384))
    # `yes` ends by the closed pipe, which is no failure.
    head -n "$lines" >"$folder/input" < <(yes 123456789012345678901234567890123456789012345678901234567890123 2>/dev/null)
    echo 'while {[gets stdin line] >= 0} {}' >"$folder/lines.tcl"
    total=$((lines + 1 + (2 * (lines + 1) + 1) / 10000 + 1))
    printf 'schedule 1\n1 %d\n' "$total" >"$folder/lines.schedule"
    entries "lines of $mebibytes MiB" lines "$folder/input" "$total"
done

# The most resident memory of a replay, in KiB.
resident() {
    command time -f %M -o "$folder/memory" "$program" --replay "$folder/$1.schedule" "$folder/$1.tcl" >/dev/null
    tail -n 1 "$folder/memory"
}

if type -P time >/dev/null; then
    echo "900 threads that wait: $((($(resident threads) - $(resident empty)) / 900)) KiB each"
fi
