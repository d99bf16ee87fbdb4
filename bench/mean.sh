#!/bin/bash
# How fast a meaning is done, and what memory it takes.
#
#     bench/mean.sh [PROGRAM [TURNS]]
#
# PROGRAM is the built program of crates/trc (`rt run` leaves it in that crate's out/). First the turns a second of `mean` on a loop that
# counts, WHILE i < n DO i := i + 1 END, which takes TURNS; then the times of `mean` and of `run` on examples/Matrices.Mod with matrices
# of 40 times 40 numbers in place of 2 times 2; then the most memory of `mean` on a module with a variable of so many numbers, each of
# which is set. Times are the processors', user's and system's, the least of five runs. The status is 1 where the loop makes fewer than
# 4 million turns a second, or where `mean` takes more than eight times as long as `run`. It wants GNU time.
set -eu
. "$(dirname "$0")/measure.sh"
program=${1:-$(built trc)}
turns=${2:-20000000}
needs "$program"

# once WORDS..: the milliseconds of the processors for one call, whose output is let go
once() {
    { time "$program" "$@" >"$work/out"; } 2>&1 | awk '{ print "call", 1000 * ($1 + $2) }'
}

# fewest WORDS..: the least of five
fewest() { least 5 once "$@" | awk '{ print $2 }'; }

echo "MODULE M; VAR i, n: INTEGER; BEGIN n := $((turns - 1)); WHILE i < n DO i := i + 1 END END M." >"$work/M.Mod"
loop=$(fewest mean "$work/M.Mod" --turns "$turns")
sed 's/size = 2;/size = 40;/' "$(dirname "$0")/../examples/Matrices.Mod" >"$work/Matrices.Mod"
meant=$(fewest mean "$work/Matrices.Mod")
sum=$(cksum <"$work/out")
ran=$(fewest run "$work/Matrices.Mod")
[ "$sum" = "$(cksum <"$work/out")" ] || { echo "mean and run write different bytes" >&2; exit 1; }
awk -v n="$turns" -v l="$loop" -v m="$meant" -v r="$ran" 'BEGIN {
    printf "loop      %.1f million turns a second\n", n / 1000 / l
    printf "Matrices  mean %d ms, run %d ms: %.1f times\n", m, r, m / r
}'
for size in 1000 100000 1000000; do
    echo "MODULE M; VAR a: ARRAY $size OF INTEGER; i: INTEGER; BEGIN FOR i := 0 TO $((size - 1)) DO a[i] := i END END M." >"$work/M.Mod"
    /usr/bin/time -q -o "$work/taken" -f '%M' "$program" mean "$work/M.Mod"
    awk -v s="$size" '{ printf "memory    %.1f MB with %d numbers\n", $1 / 1024, s }' "$work/taken"
done
awk -v n="$turns" -v l="$loop" -v m="$meant" -v r="$ran" 'BEGIN { exit n / 1000 / l < 4 || m > 8 * r }'
