#!/bin/sh
# Times the line reader: 64 MiB of comment-like lines from standard input, in bytes a second.
# It makes a small program over smil_outside in a temporary folder, and runs it as `rt run` builds it.
set -eu
. "$(dirname "$0")/program.sh"
new_program time_lines smil_outside
cp "$here/bench/programs/lines.rattle" "$program/src/main.rt"
yes '# a comment that stands in a session, of about the usual length' | head -c 67108864 > "$work/input"
cd "$program"
rt run < "$work/input" 2>&1 | tee "$work/log" | tail -n 3
taken=$(sed -n 's/.* \([0-9]*\) microseconds.*/\1/p' "$work/log" | tail -n 1)
echo "$((67108864 * 1000000 / taken)) bytes a second"
