#!/bin/bash
# Time and memory of a compilation against the text's size, for texts that repeat one thing of the grammar: 250 KB, 500 KB and 1 MB.
#
#     bench/grow.sh [PROGRAM [KIND..]]
#
# PROGRAM is the built program of crates/trc (`rt run` leaves it in that crate's out/); the kinds are those of grow_texts.py. Times are
# the processors', user's and system's, the least of five runs of `build` by one worker; growth is the time over that of half the text;
# bytes are those of memory at its most for a byte of the text. Behind them stands how the run ended. It wants GNU time. The status is 1
# where a time of over 50 ms is more than 2.6 times that of half the text, or a text takes over 400 bytes a byte.
set -eu
. "$(dirname "$0")/measure.sh"
texts=$(dirname "$0")/grow_texts.py
program=${1:-$(built trc)}
[ $# -gt 0 ] && shift
[ $# -gt 0 ] || set -- $(python3 "$texts")

# once: the milliseconds of the processors for one run on the module in the work folder; its status and its KiB are left in taken
once() {
    { time /usr/bin/time -q -o "$work/taken" -f '%x %M' timeout 100 "$program" build "$work/OUT" "$work/M.Mod" --jobs 1 2>"$work/told" || true; } 2>&1 |
        awk '{ print "run", 1000 * ($1 + $2) }'
}

printf '%-18s %8s %7s %7s %7s %7s  %s\n' text bytes ms growth MB 'B a B' ends
worst=0
for kind in "$@"; do
    last=0
    for size in 250000 500000 1000000; do
        python3 "$texts" "$kind" $size >"$work/M.Mod"
        took=$(least 5 once | awk '{ print $2 }')
        read -r ended memory < <(tail -1 "$work/taken")
        told=$(head -1 "$work/told" | sed "s|$work/||")
        bytes=$(stat -c %s "$work/M.Mod")
        awk -v k="$kind" -v b="$bytes" -v t="$took" -v l="$last" -v m="$memory" -v e="$ended $told" 'BEGIN {
            growth = l > 0 ? t / l : 0; each = m * 1024 / b
            printf "%-18s %8d %7d %7s %7.1f %7d  %s\n", k, b, t, growth ? sprintf("%.2f", growth) : "", m / 1024, each, e
            exit (t > 50 && growth > 2.6) || each > 400
        }' || worst=1
        last=$took
    done
done
exit $worst
