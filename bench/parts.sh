#!/bin/bash
# Time of an edit of one module of a program of many: the whole build against the object of that module and the link of all objects.
#
#     bench/parts.sh [PROGRAM [MODULES [PROCEDURES]]]
#
# PROGRAM is the built program of crates/trc (`rt run` leaves it in that crate's out/); there are 64 modules of 50 procedures each where
# no numbers are given, each module behind the one that it imports. Times are the least of five runs, by one worker and by four: the
# milliseconds that the processors used, and behind them those that passed. It ends with status 1 where the linked image isn't the
# built one.
set -eu
. "$(dirname "$0")/measure.sh"
program=$(realpath "${1:-$(built trc)}")
modules=${2:-64}
procedures=${3:-50}
: >"$work/in"
cd "$work"

python3 - "$modules" "$procedures" <<'PYTHON'
import sys

modules, procedures = map(int, sys.argv[1:])
for m in range(modules):
    before = m - 1
    imports = f'IMPORT M{before};' if m else ''
    text = [f'MODULE M{m}; {imports}', 'VAR sum*: INTEGER;']
    for p in range(procedures):
        other = f'P{p - 1}(a, b)' if p else (f'M{before}.P{procedures - 1}(a, b)' if m else 'a')
        text.append(f'''PROCEDURE P{p}*(a, b: INTEGER): INTEGER;
  VAR i, s, t: INTEGER;
BEGIN s := {other}; t := b;
  FOR i := 0 TO {p % 7} DO
    IF (s + i) MOD 4 = {m % 4} THEN s := s * 5 + a ELSE t := t + i * b END
  END;
  RETURN s + t + {p}
END P{p};''')
    text.append(f'BEGIN sum := P0({m}, 3) END M{m}.')
    open(f'M{m}.Mod', 'w').write('\n'.join(text) + '\n')
PYTHON

names=$(for ((m = 0; m < modules; m++)); do echo "M$m.Mod"; done)
objects=$(for ((m = 0; m < modules; m++)); do echo "M$m.obj"; done)
sofar=''
for name in $names; do
    sofar="$sofar $name"
    "$program" object "${name%.Mod}.obj" $sofar
done
"$program" build built.img $names
"$program" link linked.img $objects

echo "processors: $(nproc); modules: $modules; procedures each: $procedures"
printf '%-8s %18s %18s %18s %18s  %s\n' workers 'build, ms' 'object of last, ms' 'link, ms' 'object and link' 'of build'
for workers in 1 4; do
    build=$(both 5 "$program" build built.img $names --jobs "$workers")
    object=$(both 5 "$program" object "M$((modules - 1)).obj" $names --jobs "$workers")
    link=$(both 5 "$program" link linked.img $objects)
    echo "$workers $build $object $link" | awk '{
        printf "%-8d %11.0f %6.0f %11.0f %6.0f %11.0f %6.0f %11.0f %6.0f  %.0f%%\n", $1, $2, $3, $4, $5, $6, $7, $4 + $6, $5 + $7, 100 * ($5 + $7) / $3
    }'
done
if ! cmp -s built.img linked.img; then
    echo 'the images differ'
    exit 1
fi
