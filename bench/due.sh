#!/bin/sh
# Times the queue of keys: 100,000 keys are put and dropped in scattered orders, ten times over, in nanoseconds a call.
# It makes a small program over smil_due in a temporary folder, and runs it as `rt run` builds it.
set -eu
. "$(dirname "$0")/program.sh"
new_program time_due smil_due
cp "$here/bench/programs/due.rattle" "$program/src/main.rt"
cd "$program"
rt run 2>&1 | tail -n 3
