#!/bin/sh
# Times audits of diaries that the program itself writes: where images play in turn, of 30 elements with 100,000 and 1,000,000
# entries, of 500 with 10,000, and of 2,000 with 2,000; where clicks begin them, of 30 with 150,000, of 500 with 10,000, and of
# 2,000 with 2,000.
#   audit.sh [PROGRAM] [--scale K] [--seconds S]
# PROGRAM is crates/smilplay/out/smilplay where it is left out, as `rt run` builds it. --scale divides the numbers of entries, for
# a try. A run is ended after 3,600 seconds, or S.
# Each line: the verdict, which is yes with the number of entries, the seconds of wall time and of the processor, and the peak of
# memory in MiB.
set -eu
bench=$(cd "$(dirname "$0")" && pwd)
program=
case ${1:-} in
    '' | --*) ;;
    *) program=$1; shift ;;
esac
if [ -z "$program" ]; then
    program=$bench/../crates/smilplay/out/smilplay
    (cd "$bench/../crates/smilplay" && rt run -- run < /dev/null > /dev/null 2>&1)
fi
exec python3 "$bench/audit.py" "$program" "$@"
