#!/bin/sh
# Times the proved program over storms of 20,000 turns, whose events it chooses itself, with what helps after them, a check and
# a comparison of the legs: on 1,024 sectors of 8 chunks, and on 122,880 sectors of 30,720 chunks. It
# builds the program where that wasn't done.
set -eu
cd "$(dirname "$0")/../crates/mdc"
. ../../bench/timed.sh
[ -x out/mdc ] || rt run -- play < ../../examples/first.mdc > /dev/null

for array in "array 3 1024 128 4" "array 3 122880 4 4"; do
    input=$(mktemp)
    printf '%s\nstorm 7 20000\nauto 40000\ncheck\ncompare\nend\n' "$array" > "$input"
    echo "$array"
    timed "$input"
    rm -f "$input"
done
