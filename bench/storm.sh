#!/bin/sh
# Times the proved program over some 30,000 and 60,000 events of four nodes. They write and read, a leg is lost, removed,
# added anew and copied, a node dies in the middle of a write, is recovered and joins again; all events are accepted. Twice
# the events should take twice the time. It builds the program where that wasn't done.
set -eu
cd "$(dirname "$0")/../crates/mdc"
. ../../bench/timed.sh
[ -x out/mdc ] || rt run -- play < ../../examples/first.mdc > /dev/null

script() {
    awk -v times="$1" '
    function say(line) { print line }
    # A line for each leg: a word, a node and, for pages, the page.
    function legs(word, most,   l) { for (l = 0; l <= most; l++) say(word " " l) }
    # A round of node n. The superblock goes to the legs 0 to most, to none where it is -1.
    function hold(n) { say("token " n); say("grant token"); say("message " n); say("grant message") }
    function told(n, wish, most,   m) {
        say("offer " n " " wish)
        legs("sb " n, most)
        say("publish " n)
        for (m = 0; m < live; m++) if (m != n) { say("take " m); say("processed " m) }
        say("grant ack"); say("finish " n)
        for (m = 0; m < live; m++) if (m != n) say("grant message")
        for (m = 0; m < live; m++) if (m != n) say("resume " m)
    }
    function round(n, wish, most) { hold(n); told(n, wish, most) }
    # A write of node n to another sector, and its number.
    function write(n,   k) {
        sector = (sector * 5 + 131) % 1024
        k = writes[n]++
        say(sprintf("w %d %d %06x", n, sector, k + 1))
        return k
    }
    function read(n) { say("r " n " " sector); say("in " n " " reads[n]++) }
    function chunk() { return int(sector / 128) }
    function copy(from, to,   s) {
        round(0, "range " from " " to, -1)
        for (s = from; s < to; s++) { say("ci 0"); say("co 0 1"); say("co 0 2"); say("settle 0") }
        round(0, "range 0 0", -1)
    }
    function work(n,   k) {
        k = write(n)
        legs("bit " n " 0", 2); legs("out " n " " k, 2)
        say("ok " n " " k); say("clear " n " " chunk())
        read((n + 1) % 4)
    }
    BEGIN {
        say("array 3 1024 128 4")
        for (t = 0; t < times; t++) {
            live = 4
            for (i = 0; i < 60; i++) for (n = 0; n < 4; n++) work(n)
            # Node 1 loses leg 2, and it is taken out.
            say("cut 1 2")
            k = write(1); c = chunk()
            legs("bit 1 0", 2)
            round(1, "meta", 1)
            legs("out 1 " k, 1)
            say("ok 1 " k); say("mend 1 2")
            round(0, "remove 2", -1); round(0, "meta spare 2", 1); round(0, "newdisk 2", -1)
            # It is added anew, copied whole, and works.
            hold(0); say("lockdev 0"); told(0, "meta rebuild 2", 2)
            say("resync 0"); say("grant resync"); say("pass 0 full")
            copy(0, 1024)
            round(0, "meta work 2", 2)
            say("done 0"); say("clear 1 " c)
            for (n = 0; n < 4; n++) legs("bit " n " 0", 2)
            # Node 3 dies in the middle of a write, and node 0 recovers it.
            k = write(3); c = chunk()
            legs("bit 3 0", 2); say("out 3 " k " 0"); say("die 3")
            live = 3
            say("resync 0"); say("grant resync"); say("rec 0 3")
            legs("slotin 0 0", 2); legs("bit 0 0", 2); legs("slotout 0 0", 2)
            say("pass 0 own")
            copy(c * 128, (c + 1) * 128)
            say("recovered 0"); say("done 0"); say("clear 0 " c); legs("bit 0 0", 2)
            # It joins again.
            say("join 3"); say("grant token"); legs("load 3", 2); say("up 3")
            say("message 3"); say("grant message"); told(3, "meta", 2)
        }
        say("check"); say("end")
    }'
}

for times in 4 8; do
    input=$(mktemp)
    script "$times" > "$input"
    echo "$(($(wc -l < "$input") - 3)) events"
    timed "$input"
    rm -f "$input"
done
