# What benches that compare costs share, to be read by them after scripts.bash: what a run of a command takes, in
# microseconds of the processor (`unit=us`, the least of `runs` runs) or in thousands of instructions as valgrind counts
# them, and the numbers that they print.

# The least processor time of a run of a command, in microseconds; it is taken by the millisecond.
least() {
    local best='' took run
    local TIMEFORMAT='%3U+%3S'
    for ((run = 0; run < runs; run++)); do
        took=$({ time "$@" >/dev/null; } 2>&1)
        took=${took//./}
        took=$((1000 * (10#${took%+*} + 10#${took#*+})))
        if [ -z "$best" ] || [ "$took" -lt "$best" ]; then best=$took; fi
    done
    echo "$best"
}

# The thousands of instructions of a run of a command.
counted() {
    valgrind --tool=callgrind --callgrind-out-file=/dev/null "$@" 2>&1 >/dev/null |
        awk '/Collected/ {printf "%d\n", $NF / 1000}'
}

# What a run of a command takes, in the unit.
cost() {
    if [ "$unit" = us ]; then least "$@"; else counted "$@"; fi
}

# What a command takes for a row's script with so many, without its start: a thousand at least.
cost_of() {
    local script=$1 count=$2 start=$3 took
    shift 3
    echo "${script//N/$count}" >"$folder/row.tcl"
    took=$(($(cost "$@" "$folder/row.tcl") - start))
    echo $((took > 1000 ? took : 1000))
}
