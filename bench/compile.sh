#!/bin/bash
# Time of the compiler by pass and by policy, its code in words and steps, and its memory, for made modules; and what other
# compilers take for the same modules.
#
#     bench/compile.sh [PROGRAM [TRC]]
#
# PROGRAM is the built program of crates/pass_times (`rt run` leaves it in that crate's out/), which makes the modules. Without other
# words it compiles by linear scan, in Bi traces, with 16 registers. Times are the processors', the least of five runs. TRC is the
# built program of crates/trc, which builds an image of the module's file, by one worker and by four, as without options. Beside it stand
# gcc -O0, tcc, fpc and fpc -O2, where they are installed: they get the module in C and Pascal (bench/others.py), and their programs
# must write the same number. These times are the least that the processors used and the least that passed, of fifteen runs of
# trc and of five of each other compiler; the last columns say how often their times go into trc's by one worker, for an object file
# and for a program that runs, as an image does.
set -eu
. "$(dirname "$0")/measure.sh"
program=${1:-$(built pass_times)}
trc=${2:-$(built trc)}
: >"$work/in"

# calls SIZE [WORD..]: the calls of all passes, one by one and in one
calls() {
    "$program" 7 "$@"
    "$program" all 7 "$@"
}

# passes SIZE: the milliseconds of each pass; of linking, which gives the image; and of all in one call
passes() {
    least 5 calls "$1" | awk '
        { of[$1] = $2 / 1000 }
        END {
            of["check"] -= of["read"]
            of["read"] -= of["scan"]
            of["select"] -= of["valid"]
            print of["scan"], of["read"], of["check"], of["lower"], of["select"], of["allocate"], of["link"], of["all"]
        }'
}

heads='scan parse check lower select allocate link all'
printf '%-10s' procedures
printf '%10s' $heads
printf '\n'
for size in 100 200 400 800 1000; do
    passes "$size" >"$work/$size"
    printf '%-10d' "$size"
    printf '%10.2f' $(cat "$work/$size")
    printf '\n'
done
printf '%-10s' 1000/400
paste -d' ' "$work/1000" "$work/400" | awk '{ for (i = 1; i <= NF / 2; i++) printf "%10.2f", $i / $(i + NF / 2); print "   (wanted: at most 2.75)" }'

# policy NAME: a policy, and its words, steps, and milliseconds of allocation and of all in one call
policy() {
    least 5 calls 400 "$1" | awk -v p="$1" '
        { of[$1] = $2 }
        END { print p, of["words"], of["steps"], of["allocate"] / 1000, of["all"] / 1000 }'
}

printf '\n%-10s %9s %9s %12s %9s %10s %9s   of 400 procedures\n' policy words steps 'allocate, ms' 'all, ms' 'of linear' 'of linear'
for policy in linear mixed bottomup plain; do policy "$policy"; done | awk '
    NR == 1 { allocate = $4; all = $5 }
    { printf "%-10s %9d %9d %12.2f %9.2f %10.2f %9.2f\n", $1, $2, $3, $4, $5, $4 / allocate, $5 / all }'

printf '\n%-10s %9s %9s %14s   (wanted: under 1024)\n' procedures words MiB 'bytes a word'
for size in 100 400 1000; do
    words=$("$program" all 7 "$size" | awk '$1 == "words" { print $2 }')
    awk -v n="$size" -v w="$words" -v k="$(kilobytes "$program" all 7 "$size")" \
        'BEGIN { printf "%-10d %9d %9.1f %14.0f\n", n, w, k / 1024, 1024 * k / w }'
done

# flags NAME, object NAME, linked NAME: how a compiler is called; its call for an object file, and for a program, in the work folder
flags() {
    case $1 in
    gcc) echo gcc -O0 -fwrapv -w ;;
    tcc) echo tcc -w ;;
    fpc) echo fpc -v0 -l- ;;
    fpc-O2) echo fpc -v0 -l- -O2 ;;
    esac
}
object() {
    case $1 in
    *cc) $(flags "$1") -c -o "$work/made.o" "$work/made.c" ;;
    *) $(flags "$1") -Cn -FE"$work" "$work/made.pas" ;;
    esac
}
linked() {
    case $1 in
    *cc) $(flags "$1") -o "$work/made" "$work/made.c" ;;
    *) $(flags "$1") -FE"$work" "$work/made.pas" ;;
    esac
}

# row NAME USED PASSED USED PASSED: a compiler's times for an object file and for a program, and what trc's passed time is of each
row() {
    awk -v n="$1" -v ou="$2" -v op="$3" -v pu="$4" -v pp="$5" -v p="${ours[1]}" \
        'BEGIN { printf "%-10s %10.0f %10.0f %10.0f %10.0f %10.2f %10.2f\n", n, ou, op, pu, pp, p / op, p / pp }'
}

for size in 400 1000; do
    printf '\n%-10s %21s %21s %21s   for %d procedures\n' '' 'object file, ms' 'program, ms' 'trc, passed, by' "$size"
    printf '%-10s %10s %10s %10s %10s %10s %10s\n' compiler used passed used passed object program
    number=$("$program" all 7 "$size" | awk '$1 == "output" { print $2 }')
    "$program" text 7 "$size" >"$work/made.Mod"
    ours=($(both 15 "$trc" build "$work/made.img" "$work/made.Mod" --jobs 1))
    row trc "${ours[@]}" "${ours[@]}"
    four=($(both 15 "$trc" build "$work/made.img" "$work/made.Mod"))
    row trc-4 "${four[@]}" "${four[@]}"
    "$top/bench/others.py" c <"$work/made.Mod" >"$work/made.c"
    "$top/bench/others.py" pascal <"$work/made.Mod" >"$work/made.pas"
    for compiler in gcc tcc fpc fpc-O2; do
        command -v "${compiler%-O2}" >/dev/null || { echo "$compiler isn't here"; continue; }
        row "$compiler" $(both 5 object "$compiler") $(both 5 linked "$compiler")
        [ "$("$work/made")" = "$number" ] || echo "the program of $compiler writes another number than $number"
    done
done
echo '(wanted: at most 6 times tcc, at most 0.2 of fpc -O2)'
