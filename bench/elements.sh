#!/bin/sh
# elements.sh [COUNT]..: times an entry taken in and the evaluation of an element in documents of
# 30, 300, 1,800 and 8,000 elements, or of so many, in nanoseconds: a begin and an end appended to
# the past, with all that is kept of it, a click that begins an element, which nothing else reads;
# and at rest and with all elements active the interval of an element (with the references that give
# a time before it has happened) and its view. It makes a small program over smil_past
# and smil_element in a temporary folder, and runs it by `rt try`, compiled with checks and
# unproved, which makes it slower than what `rt run` builds: what counts is how the numbers grow.
set -eu
. "$(dirname "$0")/program.sh"
new_program time_elements smil_outline smil_element
counts=$(echo "${*:-30 300 1800 8000}" | sed 's/  */, /g')
cp "$here/bench/programs/elements.rattle" "$program/src/main.rt"
sed -i "s/\[COUNTS\]/[$counts]/" "$program/src/main.rt"
cd "$program"
rt try --steps 1000 --seconds 600 > "$work/log" 2>&1 || tail -n 40 "$work/log"
grep ' in nanoseconds: ' "$work/log"
