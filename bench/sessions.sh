#!/bin/sh
# Times whole sessions of smilplay, with the peak of memory of each; `sessions.sh --list` names them.
#   sessions.sh [PROGRAM] [--scale K] [--elements K] [--seconds S] [--only NAME]..
# PROGRAM is crates/smilplay/out/smilplay where it is left out, as `rt run` builds it. --scale divides the numbers of orders,
# and --elements those of the elements of documents, both for a try. A run is ended after 3,600 seconds, or S.
# Each line: what is done, in seconds of wall time and of the processor, with the peak of memory in MiB. Where the cost of an
# order is told, that is the difference to a run of the same session without these orders, divided by their number.
set -eu
bench=$(cd "$(dirname "$0")" && pwd)
program=
case ${1:-} in
    '' | --*) ;;
    *) program=$1; shift ;;
esac
if [ -z "$program" ] && [ "${1:-}" = --list ]; then
    program=none
elif [ -z "$program" ]; then
    program=$bench/../crates/smilplay/out/smilplay
    (cd "$bench/../crates/smilplay" && rt run -- run < /dev/null > /dev/null 2>&1)
fi
exec python3 "$bench/sessions.py" "$program" "$@"
