#!/bin/bash
# Time of allocation by each policy, against the number of operations of a straight line, and of nodes of nested loops, for sizes
# that double; and each policy's against linear scan's.
#
#     bench/allocate.sh [PROGRAM]
#
# PROGRAM is the built program of crates/policy_vectors (`rt run` leaves it in that crate's out/). Times are the processor's,
# for the whole program: reading the flow, liveness and traces are in them.
set -eu
. "$(dirname "$0")/measure.sh"
program=${1:-$(built policy_vectors)}

# took POLICY: the milliseconds for the flow
took() {
    { printf '%s ' "$1"; cat "$work/flow"; } >"$work/in"
    milliseconds "$program" bench
}

# measure KIND SIZE: prints the milliseconds for the flow by each policy, what these are of linear scan's, and the lines of
# bottom-up's results
measure() {
    linear=$(took linear)
    mixed=$(took mixed)
    plain=$(took plain)
    up=$(took bottom_up)
    awk -v k="$1" -v n="$2" -v l="$linear" -v m="$mixed" -v u="$up" -v p="$plain" -v lines="$(cat "$work/out")" '
        function of_linear(t) { return t / (l > 0 ? l : 1) }
        BEGIN {
            printf "%-6s %8d %10.1f %10.1f %10.1f %10.1f %8.2f %8.2f %8.2f  %s lines\n",
                k, n, l, m, u, p, of_linear(m), of_linear(u), of_linear(p), lines
        }'
}

printf '%-6s %8s %10s %10s %10s %10s %8s %8s %8s\n' flow size 'linear, ms' mixed 'bottom-up' plain 'mixed/l' 'up/l' 'plain/l'
for size in 1000 2000 4000 8000 16000 32000 64000; do
    "$top/bench/straight_line.py" "$size" >"$work/flow"
    measure line "$size"
done
for size in 500 1000 2000 4000 8000; do
    { printf '16 '; "$top/bench/flows.py" nest "$size"; } >"$work/flow"
    measure nest "$size"
done
