#!/bin/bash
# Time of checking against size, in doublings: declarations, one long expression, names of one scope, fields of one record, labels of
# one CASE, procedures; and what small texts may repeat: one record with as many extensions as fields, an array of so many dimensions, as
# many fields and variables of one such array, a string constant that is used again and again.
#
#     bench/check.sh [PROGRAM]
#
# PROGRAM is the built program of crates/pass_times (`rt run` leaves it in that crate's out/). Times are the processors', the least
# of five runs. Growth is the time of checking over that of half the size.
set -eu
. "$(dirname "$0")/measure.sh"
program=${1:-$(built pass_times)}

# make KIND COUNT: a module with so many of a kind
make() {
    awk -v kind="$1" -v n="$2" '
        # ones: a length of 1 for each dimension
        function ones(i) { for (i = 0; i < n; i++) printf i ? ", 1" : "1" }
        # names PREFIX: all names with a prefix, with commas between them
        function names(prefix, i) { for (i = 0; i < n; i++) printf "%s%s%d", i ? ", " : "", prefix, i }
        # places PREFIX: a store into each name, of the value of some other
        function places(prefix, i) { for (i = 0; i < n; i++) printf "%s%d := %s%d;\n", prefix, i, prefix, i * 7919 % n }
        BEGIN {
            print "MODULE M;"
            if (kind == "declarations") {
                print "CONST"; for (i = 0; i < n / 3; i++) printf "c%d = %d;\n", i, i
                print "TYPE"; for (i = 0; i < n / 3; i++) printf "T%d = ARRAY %d OF BYTE;\n", i, i % 9 + 1
                print "VAR"; for (i = 0; i < n / 3; i++) printf "v%d: T%d;\n", i, i
            } else if (kind == "expression") {
                print "VAR a, b: INTEGER; BEGIN a := b"; for (i = 1; i < n / 2; i++) printf "+ a * %d\n", i
            } else if (kind == "names") {
                printf "VAR "; names("v"); print ": INTEGER; BEGIN"; places("v")
            } else if (kind == "fields") {
                printf "VAR r: RECORD "; names("f"); print ": INTEGER END; BEGIN"; places("r.f")
            } else if (kind == "labels") {
                print "VAR a: INTEGER; BEGIN CASE a OF 0:"; for (i = 1; i < n; i++) printf "| %d:\n", i * 7919 % n
                print "END"
            } else if (kind == "extensions") {
                printf "TYPE R = RECORD "; names("f"); print ": INTEGER END;"; for (i = 0; i < n; i++) printf "E%d = RECORD (R) END;\n", i
            } else if (kind == "dimensions") {
                printf "VAR a: ARRAY "; ones(); print " OF CHAR;"
            } else if (kind == "uses") {
                printf "TYPE T = ARRAY "; ones(); printf " OF CHAR; R = RECORD "; names("f"); print ": T END;"
                printf "VAR "; names("v"); print ": T;"
            } else if (kind == "strings") {
                printf "CONST s = \""; for (i = 0; i < n; i++) printf "x"; printf "\"; VAR a: ARRAY %d OF CHAR; BEGIN\n", n + 1
                for (i = 0; i < n / 12; i++) print "a := s;"
            }
            print "END M."
        }'
}

# text KIND COUNT: the module of a kind
text() {
    if [ "$1" = procedures ]; then "$program" text 7 "$2"; else make "$@"; fi
}

# checked: what the program tells of the text in the work folder
checked() {
    "$program" check <"$work/in"
}

printf '%-14s %8s %9s %10s %10s %10s %10s %8s\n' module size bytes 'scan, ms' 'parse, ms' 'check, ms' 'us each' growth
for kind in declarations expression names fields labels extensions dimensions uses strings procedures; do
    sizes='1250 2500 5000 10000 20000'
    [ "$kind" = uses ] && sizes='6250 12500 25000 50000'
    [ "$kind" = procedures ] && sizes='125 250 500 1000'
    last=
    for size in $sizes; do
        text "$kind" "$size" >"$work/in"
        least 5 checked >"$work/times"
        took=$(awk '{ of[$1] = $2 } END { print of["check"] - of["read"] }' "$work/times")
        awk -v k="$kind" -v n="$size" -v b="$(wc -c <"$work/in")" -v t="$took" -v l="$last" '
            { of[$1] = $2 }
            END {
                printf "%-14s %8d %9d %10.2f %10.2f %10.2f %10.3f %8s\n", k, n, b, of["scan"] / 1000, (of["read"] - of["scan"]) / 1000,
                    t / 1000, t / n, l ? sprintf("%.2f", t / l) : ""
            }' "$work/times"
        last=$took
    done
done
