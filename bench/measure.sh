# What scripts that measure share; they source it. The top of the repository, a folder for what is read and written, and times.
top=$(cd "$(dirname "$0")/.." && pwd)
work=$(mktemp -d)
trap 'rm -rf "$work"' EXIT
TIMEFORMAT='%U %S'

# built CRATE: the built program of a crate (`rt run` leaves it in that crate's out/)
built() {
    echo "$top/crates/$1/out/$1"
}

# needs PROGRAM: ends the script where it isn't there
needs() {
    [ -x "$1" ] || { echo "$1 isn't there: rt run in its crate's folder builds it" >&2; exit 1; }
}

# seconds PROGRAM WORD..: the processor's seconds for one run on the file in, user's and system's; its output is left in out
seconds() {
    { time "$@" <"$work/in" >"$work/out"; } 2>&1
}

# milliseconds PROGRAM WORD..: the same as one number
milliseconds() {
    seconds "$@" | awk '{ print 1000 * ($1 + $2) }'
}

# both TIMES PROGRAM WORD..: of so many runs the least milliseconds of the processors, and the least that pass
both() {
    local times=$1 run TIMEFORMAT='%U %S %R'
    for ((run = 0; run < times; run++)); do seconds "${@:2}"; done | awk '
        { used = 1000 * ($1 + $2); passed = 1000 * $3 }
        NR == 1 || used < least_used { least_used = used }
        NR == 1 || passed < least_passed { least_passed = passed }
        END { print least_used, least_passed }'
}

# each_call NONE ALL TIMES: the milliseconds of one of so many calls, from those of a run without any and of one with all
each_call() {
    awk -v o="$1" -v t="$2" -v n="$3" 'BEGIN { print (t - o) / n }'
}

# least TIMES COMMAND..: runs a command so many times, whose lines are a name and a number; prints each name and its least number
least() {
    local times=$1 run
    for ((run = 0; run < times; run++)); do "${@:2}"; done | awk '
        !($1 in best) { best[$1] = $2; names[++n] = $1 }
        $2 + 0 < best[$1] + 0 { best[$1] = $2 }
        END { for (i = 1; i <= n; i++) print names[i], best[names[i]] }'
}

# named NAME PROGRAM WORD..: a name and the milliseconds of one run, as `least` takes them
named() {
    echo "$1 $(milliseconds "${@:2}")"
}

# kilobytes PROGRAM WORD..: the greatest resident set of one run, in KiB; it wants GNU time
kilobytes() {
    /usr/bin/time -f %M "$@" 2>&1 >/dev/null
}
