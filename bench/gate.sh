#!/bin/sh
# gate.sh [LOG]: runs `rt ci` on this checkout, and prints what each part of it takes as a table: processor seconds of each
# crate's proof, of its tests' proof, of the check that its must-fail edits begin with and of these edits, and the longest
# chain of crates by the clock. What an earlier run on this machine passed is not proved again: for a run from nothing take
# a machine that has kept nothing. Behind the table: how many edits were refused, and how many of these tell little of a clause.
# The log of the run goes to LOG.
set -eu
cd "$(dirname "$0")/.."
log=${1:-gate.log}
rt ci > "$log" 2>&1 &
gate=$!
python3 bench/gate_times.py "$gate" crates.txt
wait "$gate" || true
refused() { grep -c "refused, as it must be$1" "$log" || true; }
echo "$(refused '') edits refused, $(refused ' (only because a proof file names') of them only because a proof names what the edit took away," \
    "$(refused ' (only by a limit') only by a limit of the prover"
tail -n 1 "$log"
