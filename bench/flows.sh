#!/bin/bash
# Time of cutting traces, of liveness, of validity and of selection against the number of nodes, for sizes that double.
#
#     bench/flows.sh traces|live|valid|select [PROGRAM]
#
# PROGRAM is the built program of crates/flow_vectors (`rt run` leaves it in that crate's out/). `bench/flows.py` makes the
# flows, and says what they are. Each is read once and worked on many times; what reading it takes is subtracted, as the
# time of the same call that does no work. Times are the processor's.
set -eu
. "$(dirname "$0")/measure.sh"
what=${1:?traces, live, valid or select}
program=${2:-$(built flow_vectors)}

form=flow
case $what in valid | select) form=proc ;; esac

printf '%-8s %9s %14s %12s  %s\n' flow nodes 'ms a call' 'us a node' answer
for kind in chain ladder nest; do
    for nodes in 1000 2000 4000 8000 16000; do
        "$top/bench/flows.py" "$kind" "$nodes" "$form" >"$work/in"
        times=$((1600000 / nodes))
        none=$(milliseconds "$program" "$what" 0)
        all=$(milliseconds "$program" "$what" "$times")
        awk -v k="$kind" -v n="$nodes" -v m="$(each_call "$none" "$all" "$times")" -v a="$(cat "$work/out")" \
            'BEGIN { printf "%-8s %9d %14.3f %12.3f  %s\n", k, n, m, 1000 * m / n, a }'
    done
done
