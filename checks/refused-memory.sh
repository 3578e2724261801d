#!/usr/bin/env bash
# Refuses one allocation of a run after another, from the first to the last, and prints how many runs ended how. Each has
# to end for want of memory, with a write fault, or as if nothing had been refused, and what it wrote has to agree with
# the steps that it took, which the program says itself (`rows_refused`). With EVERY each so many-th allocation alone is
# refused. A small library before that of C refuses, up to the line in which the program says how the run ended; it is
# built by cc, so that a run takes milliseconds.
# Usage: checks/refused-memory.sh head|nested|counter|channel|pool [EVERY]
set -euo pipefail
shopt -s inherit_errexit
cd "$(dirname "$0")/.."
name=${1:?the name of a run}
every=${2:-1}
folder=$(mktemp -d)
trap 'rm -rf "$folder"' EXIT
./tclthread --replay examples/hello.schedule examples/hello.tcl >/dev/null
(cd crates/rows_refused && rt run >/dev/null)
program=$PWD/crates/rows_refused/out/rows_refused
cd crates/rows_refused/data

cat >"$folder/refuse.c" <<'C'
#include <stdlib.h>
#include <sys/syscall.h>
#include <unistd.h>

extern void *__libc_malloc(size_t size);
extern void *__libc_realloc(void *old, size_t size);

/* How many allocations there are up to the one that is refused; 0 after that, and once the program writes. */
static unsigned long left;

__attribute__((constructor)) static void begin(void) {
    const char *number = getenv("REFUSED");
    left = number ? strtoul(number, NULL, 10) : 0;
}

/* Whether this allocation is refused; then file 9 gets a byte. */
static int is_refused(void) {
    if (left == 0 || --left > 0) return 0;
    return syscall(SYS_write, 9, "r", 1) == 1;
}

void *malloc(size_t size) { return is_refused() ? NULL : __libc_malloc(size); }

void *realloc(void *old, size_t size) { return is_refused() ? NULL : __libc_realloc(old, size); }

ssize_t write(int file, const void *bytes, size_t count) {
    left = 0;
    return syscall(SYS_write, file, bytes, count);
}
C
cc -O1 -shared -fPIC -o "$folder/refuse.so" "$folder/refuse.c"

declare -A ends
failed=0 runs=0
for ((number = 1; ; number += every)); do
    line=$(timeout 60 env REFUSED="$number" LD_PRELOAD="$folder/refuse.so" "$program" "$name" \
        9>"$folder/refused" 2>"$folder/errors") || line="ended with code $?"
    [ -s "$folder/refused" ] || break
    runs=$((runs + 1))
    ends[$line]=$((${ends[$line]:-0} + 1))
    case $line in
        $'no memory\nagrees' | $'write fault\nagrees' | $'done\nagrees') ;;
        *)
            echo "$name, allocation $number: $line $(head -c 200 "$folder/errors")"
            failed=1
            ;;
    esac
done
echo "$name: $runs allocations refused"
for end in "${!ends[@]}"; do
    echo "    ${end//$'\n'/, }: ${ends[$end]}"
done
# The last run is the one in which nothing was refused.
[ "$line" = $'done\nagrees' ] && [ "$failed" -eq 0 ]
