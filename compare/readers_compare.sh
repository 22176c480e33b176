#!/bin/sh
# readers_compare.sh ORACLE [SCRIPTS [SEED]]: compares smilplay, as `rt try` builds it without a proof, with the
# reference model in the folder ORACLE, over so many random scripts (differential.py says which). Many scripts go in one
# run. Compared is the whole text: which orders are read, and of each refusal word, line and column. Prints how many
# answers of each kind there were, and each difference.
set -eu
. "$(dirname "$0")/../bench/program.sh"
new_work
python3 "$here/compare/differential.py" --oracle "$1" --cases "${2:-50000}" --seed "${3:-1}" --folder "$work"
(cd "$here/crates/smilplay" && rt try --cases "$work" --seconds 60 -- run) > "$work/told" 2>&1 || status=$?
tail -n 3 "$work/told"
grep -v '^==' "$work/told" | grep -i 'differ\|wrong\|fault' | head -n 20 || true
exit "${status:-0}"
