#!/bin/sh
# Times the dependency graph of documents of 500, 1,000 and 2,000 elements with four references
# each, scattered, and of a chain in which each of 2,000 elements refers to the one before it.
# Prints microseconds for a graph. It makes a small program over smil_graph in a temporary folder,
# and runs it as `rt run` builds it.
set -eu
. "$(dirname "$0")/program.sh"
new_program time_graph smil_outline smil_graph
cp "$here/bench/programs/graph.rattle" "$program/src/main.rt"
cd "$program"
rt run > "$work/log" 2>&1 || tail -n 40 "$work/log"
grep ' microseconds$' "$work/log"
