#!/bin/bash
# Time of a thousand small jobs by one call of `batch` against a thousand calls of `run`.
#
#     bench/batch.sh [PROGRAM [JOBS]]
#
# PROGRAM is the built program of crates/trc (`rt run` leaves it in that crate's out/), JOBS how many jobs there are, 1,000 where there
# is none, each a module that writes its number. A line for one worker and one for four, which each job starts anew: the milliseconds
# that pass, the least of three runs, and behind them the processors' milliseconds of that run. It ends with status 1 where the outputs
# aren't the same.
set -eu
. "$(dirname "$0")/measure.sh"
program=$(realpath "${1:-$(built trc)}")
jobs=${2:-1000}
TIMEFORMAT='%R %U %S'

cd "$work"
for ((job = 0; job < jobs; job++)); do
    echo "MODULE J; IMPORT Out; VAR i, s: INTEGER; BEGIN FOR i := 1 TO $job DO INC(s, i) END; Out.Int(s, 0); Out.Ln END J." >"J$job.Mod"
    echo "$((job % 2)) J$job.Mod" >>list
done

# run_each WORKERS: the outputs of all jobs, those of submitter 0 and then those of submitter 1
run_each() {
    local sender job
    for sender in 0 1; do
        for ((job = sender; job < jobs; job += 2)); do "$program" run "J$job.Mod" --jobs "$1"; done
    done
}

# passed COMMAND..: the milliseconds that pass and the processors', the least of three runs; the last output is left in out
passed() {
    local run
    for run in 1 2 3; do { time "$@" >out; } 2>&1; done | sort -n | awk 'NR == 1 { print 1000 * $1, 1000 * ($2 + $3) }'
}

echo "processors: $(nproc); jobs: $jobs"
for workers in 1 4; do
    by_batch=$(passed "$program" batch list --jobs "$workers")
    grep -v ' ' out >batch_out
    by_run=$(passed run_each "$workers")
    if ! cmp -s batch_out out; then
        echo 'the outputs differ'
        exit 1
    fi
    echo "$workers $by_batch $by_run" | awk '{ printf "workers %d: batch %.0f ms (%.0f), run %.0f ms (%.0f), %.0f%% (wanted: at most a third)\n", $1, $2, $3, $4, $5, 100 * $2 / $4 }'
done
