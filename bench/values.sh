#!/bin/bash
# Time and memory of compiling one procedure, against the number of its values: values that live nowhere; values that all live across a
# call; pairs of a loop's parameters, which change places around it; values of which each IF reads six, all live from the first on,
# whose rows of live values have a bit for each value in each of about two thirds as many nodes; and a loop of tests, a seventh as many
# as there are values, over two variables each, which all live around it.
#
#     bench/values.sh [TRC [PROGRAM]]
#
# TRC is the built program of crates/trc, PROGRAM that of crates/pass_times (`rt run` leaves them in these crates' out/). Lowering is
# PROGRAM's; the other times are those of the whole call of `build` by one worker, reading and writing included. Times are the
# processors', the least of five runs; memory is the most that a call had.
set -eu
. "$(dirname "$0")/measure.sh"
trc=${1:-$(built trc)}
program=${2:-$(built pass_times)}
: >"$work/in"

# lowers: the milliseconds of lowering the module
lowers() {
    "$program" lower <"$work/M.Mod"
}

# built_by POLICY: the milliseconds of building the module's image, and the most memory in MB
built_by() {
    local words=("$trc" build "$work/image" "$work/M.Mod" --policy "$1" --jobs 1)
    echo "$(least 5 named time "${words[@]}" | awk '{ print $2 }') $(kilobytes "${words[@]}" | awk '{ printf "%.1f", $1 / 1024 }')"
}

printf '%-10s %8s %10s' shape values 'lower, ms'
for policy in plain linear bottomup; do printf ' %14s %6s' "$policy, ms" MB; done
printf '\n'
for shape in asserts homes swaps branches tests; do
    for values in 1000 2000 4000 8000; do
        "$top/bench/size_texts.py" "$shape" "$values" >"$work/M.Mod"
        printf '%-10s %8d %10.2f' "$shape" "$values" "$(least 5 lowers | awk '$1 == "lower" { print $2 / 1000 }')"
        for policy in plain linear bottomup; do printf ' %14.1f %6s' $(built_by "$policy"); done
        printf '\n'
    done
done
