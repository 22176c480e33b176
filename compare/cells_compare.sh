#!/bin/sh
# cells_compare.sh ORACLE [SEED] [CASES] [FILES] [TABLE]: compares cells over a table, `live` or
# `plain` (live if left out), with the reference model in the folder ORACLE by random scripts:
# settling near and far, events, keys and lengths of media, marks that are gone back to or let go,
# copies that go on beside their originals, and rebuilding, also of changed documents. After each
# call the new entries of the diary, the intervals and views that changed, the moment, the next due
# moment and the lengths of log and diary are told; of the touched elements that they are in
# document order, each once, and that each view that changed is among them; after `back` that all is
# as it was at the mark; after a refusal that it is answered again, or that the mark can be gone
# back to. It makes a small program in a temporary folder, and runs it by `rt try`, so with checks
# and unproved: its scripts come from outside. Its last line counts the files: `differs=0` where all
# is the same.
set -eu
. "$(dirname "$0")/compare.sh"
new_comparison compare_cells smil_outline smil_nodes smil_plain
case ${5:-live} in
    live) cells=smil_nodes::LiveCells ;;
    plain) cells=smil_plain::PlainCells ;;
    *) echo 'TABLE is live or plain' >&2; exit 2 ;;
esac
python3 "$here/compare/engine_cases.py" --kind cells --oracle "$1" --out "$work/cases" --seed "${2:-1}" --cases "${3:-500}" --files "${4:-10}"
cp "$here/compare/programs/cells_compare.rattle" "$program/src/main.rt"
with_main
sed -i "s/^use CELLS as/use $cells as/" "$program/src/main.rt"
compare_cases --steps 1000 --seconds 300
