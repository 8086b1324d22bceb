#!/bin/sh
# Times the proved program over 30,000 and 60,000 events: writes and reads of two nodes on 8,192 sectors, and one check at
# the end. Twice the events should take twice the time. It builds the program where that wasn't done.
set -eu
cd "$(dirname "$0")/../crates/mdc"
. ../../bench/timed.sh
[ -x out/mdc ] || rt run -- play < ../../examples/first.mdc > /dev/null

# Rounds of six events: a write of node 0 to both legs and its end, and a read of node 1.
script() {
    awk -v rounds="$1" 'BEGIN {
        print "warm 2 8192 64 2"
        for (k = 0; k < rounds; k++) {
            s = (k * 7919) % 8192
            printf "w 0 %d %06x\nout 0 %d 0\nout 0 %d 1\nok 0 %d\nr 1 %d\nin 1 %d\n", s, k + 1, k, k, k, s, k
        }
        print "check\nend"
    }'
}

for rounds in 5000 10000; do
    input=$(mktemp)
    script "$rounds" > "$input"
    echo "$((rounds * 6)) events"
    timed "$input"
    rm -f "$input"
done
