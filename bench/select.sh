#!/bin/sh
# Time of selecting procedures' flows, against the number of blocks and values, for sizes that double: `bench/flows.sh`
# says how. A procedure is let go when it is selected, so each is read and found valid anew, which is in the times.
exec "$(dirname "$0")/flows.sh" select "$@"
