#!/bin/sh
# Time of the scanner against the number of bytes, for sizes that double up to the most that it takes.
#
#     bench/scan.sh [PROGRAM]
#
# PROGRAM is the built program of crates/scan_bench (`rt run` leaves it in that crate's out/). It makes a text of a
# shape and a size and scans it many times; what making the text and starting the program take is subtracted, as
# the time of the same call with no scan. The shapes: lines of a program, one literal of digits, comments each in the one before.
set -eu
top=$(cd "$(dirname "$0")/.." && pwd)
program=${1:-$top/crates/scan_bench/out/scan_bench}

# nanoseconds SHAPE BYTES TIMES: of one call of the program
nanoseconds() {
    from=$(date +%s%N)
    "$program" "$1" "$2" "$3" >/dev/null
    to=$(date +%s%N)
    echo $((to - from))
}

printf '%-10s %9s %12s %12s  %s\n' shape bytes 'ms a scan' 'ns a byte' answer
for shape in program digits comments; do
    for bytes in 65536 131072 262144 524288 1048576; do
        times=$((33554432 / bytes))
        none=$(nanoseconds "$shape" "$bytes" 0)
        all=$(nanoseconds "$shape" "$bytes" "$times")
        answer=$("$program" "$shape" "$bytes" 1)
        awk -v k="$shape" -v b="$bytes" -v n="$times" -v t="$((all - none))" -v a="$answer" \
            'BEGIN { printf "%-10s %9d %12.3f %12.2f  %s\n", k, b, t / n / 1e6, t / n / b, a }'
    done
done
