#!/bin/sh
# Times the reading of outlines: scripts of about 200,000 node lines, in loads of 500, 1,000 and 2,000 nodes with four
# references each, read by smilplay as `rt run` builds it. Prints nanoseconds a line, which grow
# little with the outline.
set -eu
. "$(dirname "$0")/program.sh"
new_work
program=$here/crates/smilplay/out/smilplay
(cd "$here/crates/smilplay" && rt run -- run < /dev/null > /dev/null 2>&1)
for nodes in 500 1000 2000; do
    awk -v nodes="$nodes" 'BEGIN {
        for (load = 0; load < 200000 / nodes; load++) {
            print "load d"
            print "par id=\"root\""
            for (k = 2; k <= nodes; k++) {
                other = 2 + k * 7919 % (nodes - 1)
                printf "  img id=\"slide%d\" begin=\"slide%d.begin+1s;slide%d.end\" end=\"slide%d.click;root.click\"\n", k, other, other, k
            }
            print "%%"
        }
    }' > "$work/script"
    lines=$(wc -l < "$work/script")
    best=
    for _ in 1 2 3; do
        start=$(date +%s%N)
        "$program" run < "$work/script" > "$work/transcript" || [ $? -eq 1 ]
        taken=$(($(date +%s%N) - start))
        if [ -z "$best" ] || [ "$taken" -lt "$best" ]; then best=$taken; fi
    done
    sort "$work/transcript" | sed 's/[0-9][0-9]* //' | sort | uniq -c | sed 's/^ *//; s/^/  answers: /'
    echo "$nodes nodes: $lines lines, $((best / lines)) nanoseconds a line"
done
