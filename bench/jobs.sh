#!/bin/bash
# Time of allocation and of a whole compilation against the number of workers, for a made module.
#
#     bench/jobs.sh [PROGRAM [SIZE]]
#
# PROGRAM is the built program of crates/pass_times (`rt run` leaves it in that crate's out/), SIZE the number of the module's
# procedures, 1,000 where there is none. `cut` makes traces, `results` gives them places, which the workers share; `allocate` is
# both and the lines of edges; `all` goes from the text to the image. Times are those that passed, the least of fifteen runs, so the
# machine should have nothing else to do; behind each its part of one worker's time.
set -eu
. "$(dirname "$0")/measure.sh"
program=${1:-$(built pass_times)}
size=${2:-1000}

# passed JOBS: a name and the microseconds that passed, a line for each call
passed() {
    { "$program" 7 "$size" linear bi 16 "$1" && "$program" all 7 "$size" linear bi 16 "$1"; } | awk 'NF == 3 { print $1, $3 }'
}

echo "processors: $(nproc); procedures: $size"
printf '%6s' jobs
printf '%12s %6s' 'cut, ms' '' 'results, ms' '' 'allocate, ms' '' 'all, ms' ''
printf '\n'
for jobs in 1 2 4; do
    least 15 passed "$jobs" >"$work/$jobs"
    awk -v j="$jobs" '
        NR == FNR { one[$1] = $2; next }
        { of[$1] = $2 }
        END {
            printf "%6d", j
            split("cut results allocate all", names)
            for (i = 1; i <= 4; i++) printf "%12.2f %5.0f%%", of[names[i]] / 1000, 100 * of[names[i]] / one[names[i]]
            printf "\n"
        }' "$work/1" "$work/$jobs"
done
echo '(wanted: results by 4 workers on 4 processors in at most 40% of the time of one)'
