#!/bin/bash
# Time of lowering against the number of procedures of made modules.
#
#     bench/lower.sh [PROGRAM]
#
# PROGRAM is the built program of crates/pass_times (`rt run` leaves it in that crate's out/). Times are the processors', the least
# of five runs.
set -eu
. "$(dirname "$0")/measure.sh"
program=${1:-$(built pass_times)}

printf '%10s %10s %15s\n' procedures ms 'us a procedure'
for size in 100 200 300 400 500 600 700 800 900 1000; do
    least 5 "$program" 7 "$size" | awk -v n="$size" '$1 == "lower" { printf "%10d %10.2f %15.2f\n", n, $2 / 1000, $2 / n }'
done
