#!/bin/bash
# How many of the machine's steps a cell takes: of a copied array of 1 MiB of numbers and one of 1 MiB of characters, of a list of a
# million records that is made and gone through, and of two texts that are compared; and how many bytes programs take for data.
#
#     bench/objects.sh [PROGRAM [WORD..]]
#
# PROGRAM is the built program of crates/trc (`rt run` leaves it in that crate's out/); the words go to each call, as `--policy plain`.
# The steps of a program are found by halving: with so many it ends, with one less it doesn't. Those of the same program without
# what is measured are taken off.
set -eu
. "$(dirname "$0")/measure.sh"
program=${1:-$(built trc)}
shift || true

# ends STEPS WORD..: whether the module in the work folder ends within so many steps
ends() {
    local steps=$1
    shift
    "$program" run "$work/M.Mod" --steps "$steps" "$@" >/dev/null 2>&1
}

# steps TEXT WORD..: how many steps the module takes
steps() {
    printf '%s\n' "$1" >"$work/M.Mod"
    shift
    local low=0 high=1
    until ends "$high" "$@"; do
        low=$high
        high=$((high * 2))
    done
    while [ $((high - low)) -gt 1 ]; do
        local middle=$(((low + high) / 2))
        if ends "$middle" "$@"; then high=$middle; else low=$middle; fi
    done
    echo "$high"
}

# row NAME CELLS WITH WITHOUT WORD..: the steps a cell
row() {
    local name=$1 cells=$2 with without
    with=$(steps "$3" "${@:5}")
    without=$(steps "$4" "${@:5}")
    awk -v n="$name" -v c="$cells" -v a="$with" -v b="$without" 'BEGIN { printf "%-34s %9d cells %7.2f steps a cell\n", n, c, (a - b) / c }'
}

# data NAME FILE..: the bytes of the globals and of the constants of the image of these modules
data() {
    "$program" build "$work/image" "${@:2}"
    od -An -tu4 -j20 -N8 "$work/image" | awk -v n="$1" '{ printf "%-34s %9d bytes of globals %9d of constants\n", n, $1, $2 }'
}

# data_of NAME TEXT: the same of a module
data_of() {
    printf '%s\n' "$2" >"$work/M.Mod"
    data "$1" "$work/M.Mod"
}

arrays='VAR a, b: ARRAY 131072 OF INTEGER;'
row 'an array of 1 MiB is copied' 131072 "MODULE M; $arrays BEGIN b := a END M." "MODULE M; $arrays END M." "$@"

made='TYPE T = RECORD t: ARRAY 1048576 OF CHAR END; VAR p, q: POINTER TO T;'
new='NEW(p); NEW(q);'
row 'one of 1 MiB of characters' 1048576 "MODULE M; $made BEGIN $new q.t := p.t END M." "MODULE M; $made BEGIN $new END M." "$@"

list='TYPE List = POINTER TO Node; Node = RECORD n: INTEGER; next: List END; VAR l, p: List; i: INTEGER;'
make='FOR i := 1 TO 1000000 DO NEW(p); p.n := i; p.next := l; l := p END;'
walk='i := 0; p := l; WHILE p # NIL DO i := i + p.n; p := p.next END;'
row 'a list of a million is made' 1000000 "MODULE M; $list BEGIN $make END M." "MODULE M; $list END M." "$@"
row 'and gone through' 1000000 "MODULE M; $list BEGIN $make $walk END M." "MODULE M; $list BEGIN $make END M." "$@"

texts='VAR s, t: ARRAY 100001 OF CHAR; i: INTEGER; b: BOOLEAN;'
fill='FOR i := 0 TO 99999 DO s[i] := "a" END; t := s;'
row 'two texts are compared' 100000 "MODULE M; $texts BEGIN $fill b := s = t END M." "MODULE M; $texts BEGIN $fill END M." "$@"

data_of 'these two texts' "MODULE M; $texts BEGIN $fill b := s = t END M."
data_of 'a hundred words in a table' 'MODULE M; TYPE W = RECORD t: ARRAY 32 OF CHAR; n: INTEGER; used: BOOLEAN END; VAR w: ARRAY 100 OF W; END M.'
for example in Texts Interpreter Calc Sorting Lucky; do data "$example" "$top/examples/$example.Mod"; done
data 'UseStack and Stack' "$top/examples/Stack.Mod" "$top/examples/UseStack.Mod"
