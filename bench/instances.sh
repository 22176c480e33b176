#!/bin/sh
# Times kept instance times of documents of 500, 1,000 and 2,000 elements with three references
# each, in microseconds: the graph of the document for comparison, the empty value, one begin, one
# end and one event that nothing waits for noted, a repeat of the root, which concerns each item,
# and all entries made anew. It makes a small program over smil_instances in a temporary folder, and
# runs it by `rt try`, compiled with checks and unproved, which makes it some hundred times slower
# than what `rt run` builds (compare the graph with graph.sh).
set -eu
. "$(dirname "$0")/program.sh"
new_program time_instances smil_outline smil_instances
cp "$here/bench/programs/instances.rattle" "$program/src/main.rt"
cd "$program"
rt try > "$work/log" 2>&1 || tail -n 40 "$work/log"
grep ' microseconds, ' "$work/log"
