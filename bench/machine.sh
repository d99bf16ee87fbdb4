#!/bin/bash
# Prints how many million steps a second of its own processor time the machine makes on four loops: one that counts,
# one of loads and stores, one of calls, and one of stores at both ends of frames of 32 KiB; and what a run of no steps
# takes, which is loading. It wants GNU time. Usage: bench/machine.sh [STEPS]
set -e
steps=${1:-50000000}
cd "$(dirname "$0")/../crates/machine_vectors"
rt run >/dev/null 2>&1 || true
program=out/machine_vectors
[ -x "$program" ] || { echo "machine_vectors did not build" >&2; exit 1; }
# User seconds, wall seconds and the most memory in KB of a run.
run() { /usr/bin/time -f '%U %e %M' "$program" "$1" "$2" 2>&1 >/dev/null; }
for name in count memory calls frames; do
  start=$(date +%s%N)
  for _ in 1 2 3 4 5 6 7 8 9 10; do "$program" "$name" 0 >/dev/null; done
  loads=$(( ($(date +%s%N) - start) / 10000 ))
  read -r _ _ memory <<< "$(run "$name" 0)"
  read -r user _ _ <<< "$(run "$name" "$steps")"
  awk -v n="$name" -v s="$steps" -v u="$user" -v l="$loads" -v m="$memory" 'BEGIN {
    printf "%-7s %4.0f million steps a second; a run of none: %.1f ms, %.1f MB\n", n, s / 1e6 / (u + 0.001), l / 1000, m / 1024 }'
done
