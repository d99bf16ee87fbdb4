#!/bin/bash
# Time of putting moves in order against the number of places, for sizes that double: permutations of 16 registers and homes.
#
#     bench/order.sh [PROGRAM]
#
# PROGRAM is the built program of crates/link_vectors (`rt run` leaves it in that crate's out/). Times are the processor's; the
# time of the same run that orders nothing is subtracted.
set -eu
. "$(dirname "$0")/measure.sh"
program=${1:-$(built link_vectors)}

printf '%9s %14s %12s  %s\n' homes 'ms a call' 'us a move' answer
for homes in 500 1000 2000 4000 8000 16000 32000; do
    echo "order 16 $homes" >"$work/in"
    times=$((800000 / homes))
    none=$(milliseconds "$program" bench 0)
    all=$(milliseconds "$program" bench "$times")
    awk -v h="$homes" -v m="$(each_call "$none" "$all" "$times")" -v a="$(cat "$work/out")" \
        'BEGIN { printf "%9d %14.3f %12.4f  %s\n", h, m, 1000 * m / (h + 16), a }'
done
