#!/bin/bash
# Time of linking against the number of procedures, for sizes that double.
#
#     bench/link.sh [PROGRAM]
#
# PROGRAM is the built program of crates/link_vectors (`rt run` leaves it in that crate's out/). `bench/link_vectors.py`
# makes the flows, where the other compiler is. Each module is read once, and allocated, resolved and linked many times, since
# linking lets go what it is given; the time of the same run that links nothing is subtracted. Times are the processor's.
set -eu
. "$(dirname "$0")/measure.sh"
program=${1:-$(built link_vectors)}

printf '%9s %9s %14s %12s\n' copies words 'ms a call' 'us a word'
for copies in 1 2 4 8 16 32; do
    "$top/bench/link_vectors.py" bench "$copies" >"$work/in"
    times=$((64 / copies + 1))
    none=$(milliseconds "$program" allocate "$times")
    all=$(milliseconds "$program" bench "$times")
    words=$(awk '$1 == "image" { print $2 }' "$work/out")
    awk -v c="$copies" -v m="$(each_call "$none" "$all" "$times")" -v w="${words:-0}" \
        'BEGIN { printf "%9d %9d %14.3f %12.4f\n", c, w, m, w ? 1000 * m / w : 0 }'
done
