#!/bin/bash
# Whether a short stack suffices: each module with 100 constructs open in each other is built under 8 MiB of stack and under 64 KiB
# (`ulimit -s`), by one worker and by four, and the images must be the same. Ends with status 1 at the first that isn't.
#
#     bench/stack.sh [PROGRAM]
#
# PROGRAM is the built program of crates/trc (`rt run` leaves it in that crate's out/).
set -eu
. "$(dirname "$0")/measure.sh"
program=$(realpath "${1:-$(built trc)}")
needs "$program"
"$top/bench/nest_texts.py" "$work"
count=0
for text in "$work"/*.Mod; do
    (ulimit -s 8192 && "$program" build "$work/much" "$text")
    for jobs in 1 4; do
        if ! (ulimit -s 64 && "$program" build "$work/little" "$text" --jobs "$jobs") || ! cmp -s "$work/much" "$work/little"; then
            echo "$(basename "$text"): not as with much stack" >&2
            exit 1
        fi
        count=$((count + 1))
    done
done
echo "$count builds under 64 KiB of stack as under 8 MiB"
