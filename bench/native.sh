#!/bin/bash
# Native programs against the machine, where an emulator of AArch64 with Linux is installed (Debian's qemu-user-static has one):
# output, status and error line of all examples and vectors of crates/trc_runs and of a thousand made ones, and the time of a loop. It
# ends with status 1 where something differs.
#
#     bench/native.sh [PROGRAM]
#
# PROGRAM is the built program of crates/trc (`rt run` leaves it in that crate's out/).
set -eu
. "$(dirname "$0")/measure.sh"
program=${1:-$(built trc)}
emulator=$(command -v qemu-aarch64-static || command -v qemu-aarch64 || true)
if [ -z "$emulator" ]; then
    echo 'no qemu-aarch64 here; nothing is compared'
    exit 0
fi
python3 "$top/bench/native.py" "$program" "$emulator"
