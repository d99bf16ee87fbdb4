#!/bin/bash
# Time of the parser against the number of symbols, for sizes that double up to the most that it takes.
#
#     bench/parse.sh [PROGRAM]
#
# PROGRAM is the built program of crates/parse_vectors (`rt run` leaves it in that crate's out/). It reads a module's
# symbols as words, so each figure holds the reading of words too; `words` is that part alone: words that the parser
# leaves at once, since the first is wrong already.
set -eu
. "$(dirname "$0")/measure.sh"
program=${1:-$(built parse_vectors)}

# make KIND COUNT: a module of about COUNT symbols
make() {
    awk -v kind="$1" -v n="$2" 'BEGIN {
        if (kind == "words") {
            for (i = 0; i < n; i++) printf "ident "
        } else if (kind == "declarations") {
            printf "MODULE ident ; VAR "
            for (i = 0; i + 16 < n; i += 7) printf "ident , ident * : ident ; "
            printf "END ident .\n"; exit
        } else if (kind == "statements") {
            printf "MODULE ident ; BEGIN ident "
            for (i = 0; i + 16 < n; i += 7) printf "; ident := ident [ integer ] "
            printf "END ident .\n"; exit
        } else if (kind == "expression") {
            printf "MODULE ident ; BEGIN ident := ident "
            for (i = 0; i + 16 < n; i += 4) printf "+ ident * integer "
            printf "END ident .\n"; exit
        } else {
            printf "MODULE ident ; BEGIN ident "
            for (i = 0; i + 210 < n; i += 204) {
                printf "; ident := "
                for (j = 0; j < 100; j++) printf "( "
                printf "ident "
                for (j = 0; j < 100; j++) printf ") "
            }
            printf "END ident .\n"; exit
        }
        printf "\n"
    }'
}

printf '%-14s %9s %9s %12s  %s\n' module symbols seconds 'ns a symbol' answer
for kind in words declarations statements expression parentheses; do
    for count in 65536 131072 262144 524288 1048576; do
        make "$kind" "$count" >"$work/in"
        symbols=$(wc -w <"$work/in")
        from=$(date +%s%N)
        answer=$("$program" <"$work/in")
        to=$(date +%s%N)
        awk -v k="$kind" -v s="$symbols" -v t="$((to - from))" -v a="$answer" \
            'BEGIN { printf "%-14s %9d %9.3f %12.0f  %s\n", k, s, t / 1e9, t / s, a }'
    done
done
