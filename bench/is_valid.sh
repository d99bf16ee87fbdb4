#!/bin/sh
# Time of finding out whether procedures are valid, against the number of blocks and values, for sizes that double:
# `bench/flows.sh` says how.
exec "$(dirname "$0")/flows.sh" valid "$@"
