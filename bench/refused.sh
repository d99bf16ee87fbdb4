#!/bin/bash
# What the program answers where one call of the C library is refused, in turn each of a kind: an allocation; an open, read, write or
# close; a read or write that moves one byte; one that is interrupted; a thread that isn't started. Of allocations each of the first
# 300 and then every seventh, of the others each. A run is right where it ends
#
#   0  with the output and the file of a run of which nothing is refused, and no line
#   4  with the line of a fault of a device; only after one of the output is there a beginning of the output, and only after one of the
#      files may OUT hold anything
#   5  with its line, no output, and OUT as it was
#
# and anything else ends the script with status 1 (a crash, a hang of 20 seconds, another status or line, a file half written).
#
#     bench/refused.sh [PROGRAM]
#
# PROGRAM is the built program of crates/trc (`rt run` leaves it in that crate's out/). It wants gcc, which compiles refused.c.
set -eu
. "$(dirname "$0")/measure.sh"
program=$(realpath "${1:-$(built trc)}")
gcc -O1 -shared -fPIC -o "$work/refused.so" "$(dirname "$0")/refused.c" -ldl
cd "$work"

# the texts: twenty local variables and their sum, two modules, one that copies its input, and one that does nothing
awk 'BEGIN {
    printf "MODULE R; IMPORT Out; PROCEDURE P; VAR a1"; for (i = 2; i <= 20; i++) printf ", a%d", i; printf ": INTEGER; BEGIN "
    for (i = 1; i <= 20; i++) printf "a%d := %d; ", i, i
    printf "Out.Int(a1"; for (i = 2; i <= 20; i++) printf " + a%d", i; print ", 0) END P; BEGIN P END R."
}' >R.Mod
echo 'MODULE A; PROCEDURE Twice*(x: INTEGER): INTEGER; BEGIN RETURN 2*x END Twice; END A.' >A.Mod
echo 'MODULE B; IMPORT A, Out; BEGIN Out.Int(A.Twice(21), 0); Out.Ln END B.' >B.Mod
echo 'MODULE K; IMPORT In, Out; VAR c: CHAR; BEGIN In.Char(c); WHILE In.Done DO Out.Char(c); In.Char(c) END END K.' >K.Mod
printf 'hostile use' >in
"$program" build K.img K.Mod

# right STATUS: whether a run that ended so answered what it may
right() {
    case $1 in
        0) cmp -s wanted.out out && cmp -s wanted.OUT OUT && [ ! -s err ] ;;
        4)
            line=$(cat err)
            case $line in
                'trc: write fault on output') cmp -s -n "$(stat -c %s out)" wanted.out out && cmp -s before OUT ;;
                'trc: write fault on files') [ ! -s out ] ;;
                'trc: read fault on files' | 'trc: read fault on input') [ ! -s out ] && cmp -s before OUT ;;
                *) false ;;
            esac
            ;;
        5) [ "$(cat err)" = 'trc: out of memory' ] && [ ! -s out ] && cmp -s before OUT ;;
        *) false ;;
    esac
}

# sweep KIND WORD..: refuses each call of a kind in turn, until five runs in a row came to their end before it
sweep() {
    local kind=$1 number=1 past=0 status last=0
    shift
    declare -A ended=()
    echo before >before
    cp before OUT
    "$program" "$@" <in >wanted.out
    cp OUT wanted.OUT
    while [ $past -lt 5 ]; do
        rm -f mark
        cp before OUT
        status=0
        runs=$((runs + 1))
        timeout 20 env REFUSED=$kind:$number REFUSED_MARK=mark LD_PRELOAD=./refused.so "$program" "$@" <in >out 2>err || status=$?
        if ! right $status; then
            echo "$kind $number of $*: status $status, $(cat err)"
            exit 1
        fi
        if [ -e mark ]; then
            past=0
            last=$number
            ended[$status]=$((${ended[$status]:-0} + 1))
        else
            past=$((past + 1))
        fi
        if [ "$kind" = alloc ] && [ $number -ge 300 ]; then number=$((number + 7)); else number=$((number + 1)); fi
    done
    printf '%-8s %-32s %7d %7d %7d %7d\n' "$kind" "$*" "$last" "${ended[0]:-0}" "${ended[4]:-0}" "${ended[5]:-0}"
}

runs=0
printf '%-8s %-32s %7s %7s %7s %7s\n' refused words last 'ends 0' 'ends 4' 'ends 5'
for words in 'build OUT R.Mod --jobs 3' 'build OUT A.Mod B.Mod' 'bulk 7 20' 'run K.Mod' 'exec K.img' 'elf OUT K.Mod' 'traces R.Mod' help; do
    for kind in alloc io short again thread; do
        # shellcheck disable=SC2086
        sweep $kind $words
    done
done
echo "$runs runs"
