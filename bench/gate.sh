#!/usr/bin/env bash
# Prints the processor minutes that the merge gate takes from nothing, crate by crate: of its proof (with what two
# compilers make of a program), of its tests, and of its must-fail edits; then the sums, and the gate's last line. It
# runs `rt ci --anew`, over the crates that are named and those below them, or over all, and looks once a second at how
# much time each process of the prover has used. Measure with nothing else running.
# Usage: bench/gate.sh [CRATE ...]
set -euo pipefail
cd "$(dirname "$0")/.."
folder=$(mktemp -d)
trap 'rm -rf "$folder"' EXIT

# What a process of the prover is for: its crate, and one of proof, tests, edits.
purpose() {
    local words crate kind=proof
    mapfile -d '' -t words <"/proc/$1/cmdline"
    for ((at = 0; at < ${#words[@]}; at++)); do
        case ${words[at]} in
        --crate-name) crate=${words[at + 1]} ;;
        --test) kind=tests ;;
        esac
    done
    case $(readlink "/proc/$1/cwd") in */rt-edit-*) kind=edits ;; esac
    echo "${crate:-none} $kind"
}

declare -A known

# Adds a line for each process of the prover in the gate's session: process, crate, purpose, and its time in ticks.
sample() {
    local file line fields number
    for file in /proc/[0-9]*/stat; do
        read -r line 2>/dev/null <"$file" || continue
        case $line in *'(rattle)'*) ;; *) continue ;; esac
        number=${line%% *}
        read -r -a fields <<<"${line##*) }"
        [ "${fields[3]}" = "$1" ] || continue
        # The process number may come again: the time at which it began is part of its name.
        known[$number.${fields[19]}]=${known[$number.${fields[19]}]:-$(purpose "$number" 2>/dev/null || echo none proof)}
        echo "$number.${fields[19]} ${known[$number.${fields[19]}]} $((fields[11] + fields[12]))"
    done
}

# The greatest time of each process counts; a line for each crate, in the order of crates.txt.
table() {
    sort -k1,1 -k4,4n "$folder/samples" | awk -v ticks="$(getconf CLK_TCK)" '
        FNR == NR {last[$1] = $2 " " $3 " " $4; next}
        FNR == 1 {for (it in last) {split(last[it], part, " "); minutes[part[1], part[2]] += part[3] / ticks / 60}}
        /^[a-z]/ {
            name = $1
            sub(/:.*/, "", name)
            all = minutes[name, "proof"] + minutes[name, "tests"] + minutes[name, "edits"]
            if (all == 0) next
            printf "%-22s %7.1f %7.1f %7.1f %7.1f\n", name, minutes[name, "proof"], minutes[name, "tests"], minutes[name, "edits"], all
            proofs += minutes[name, "proof"]; tests += minutes[name, "tests"]; edits += minutes[name, "edits"]
        }
        END {printf "%-22s %7.1f %7.1f %7.1f %7.1f\n", "all", proofs, tests, edits, proofs + tests + edits}
    ' - crates.txt
}

begun=$(date +%s)
setsid rt ci --anew "$@" >"$folder/gate" 2>&1 </dev/null &
gate=$!
while kill -0 "$gate" 2>/dev/null; do
    sample "$gate" >>"$folder/samples"
    sleep 1
done
status=0
wait "$gate" || status=$?
printf '%-22s %7s %7s %7s %7s\n' crate proof tests edits all
table
echo "$((($(date +%s) - begun) / 60)) minutes on $(nproc) processors: $(tail -n 1 "$folder/gate")"
exit "$status"
