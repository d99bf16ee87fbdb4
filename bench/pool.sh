#!/bin/sh
# Time of the work pool against the number of workers, for tasks of about 1, 10 and 100 microseconds, and of no work.
#
#     bench/pool.sh [PROGRAM]
#
# PROGRAM is the built program of crates/pool_run (`rt run` leaves it in that crate's out/). It makes a tree of sums,
# runs it with so many workers, and writes the microseconds that opening, running and gathering took. How many rounds
# make a microsecond is measured first. Each line is the least of five runs.
set -eu
top=$(cd "$(dirname "$0")/.." && pwd)
program=${1:-$top/crates/pool_run/out/pool_run}

# least TRACES ROUNDS JOBS: the microseconds of the fastest of five runs
least() {
    for run in 1 2 3 4 5; do
        "$program" "$1" "$2" "$3"
    done | awk 'NR == 1 || $1 < best { best = $1 } END { print best }'
}

rounds=$(awk -v us="$(least 1 100000000 1)" 'BEGIN { print int(1e8 / us) }')
echo "processors: $(nproc); rounds a microsecond: $rounds"
printf '%12s %9s %6s %12s %12s %9s\n' 'task (us)' traces jobs 'ms' 'us a task' speed-up
for case in '0 100000' '1 100000' '10 100000' '100 20000'; do
    set -- $case
    for jobs in 1 2 4; do
        took=$(least "$2" "$(($1 * rounds))" "$jobs")
        [ "$jobs" = 1 ] && one=$took
        awk -v k="$1" -v n="$2" -v j="$jobs" -v t="$took" -v one="$one" \
            'BEGIN { printf "%12d %9d %6d %12.2f %12.3f %9.2f\n", k, n, j, t / 1e3, t / n, one / t }'
    done
done
printf '\n%9s %12s %12s\n' traces 'ms (1 job)' 'ns a trace'
for traces in 16384 32768 65536 131072 262144; do
    took=$(least "$traces" 0 1)
    awk -v n="$traces" -v t="$took" 'BEGIN { printf "%9d %12.2f %12.1f\n", n, t / 1e3, t * 1e3 / n }'
done
