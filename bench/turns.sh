#!/bin/sh
# Times 1,000,000 acts in a turn by 1, 2 and 4 threads, and the same number of pushes under a Mutex of Rust's standard
# library. The program in bench/turns is proved and built in a scratch repository, so it is no part of `rt ci`: its files
# end in .txt here.
set -eu
here=$(cd "$(dirname "$0")" && pwd)
scratch=$(mktemp -d)
trap 'rm -rf "$scratch"' EXIT
mkdir -p "$scratch/crates"
cp "$here/../HANDLES" "$scratch/"
cp -a "$here/../crates/turn_table" "$scratch/crates/"
cp -a "$here/turns" "$scratch/crates/turn_bench"
find "$scratch/crates/turn_bench" -name '*.txt' | while read -r file; do mv "$file" "${file%.txt}"; done
mkdir -p "$scratch/crates/turn_bench/specs"
: > "$scratch/crates/turn_bench/specs/Lib.antt"
printf 'turn_table: atomic_table\nturn_bench: turn_table\n' > "$scratch/crates.txt"
(cd "$scratch" && git init -q . && cd crates/turn_bench && echo 1 | rt run > "$scratch/log" 2>&1) \
    || { tail -n 20 "$scratch/log"; exit 1; }
rustc -O -o "$scratch/mutex" "$here/turns/mutex.rs"

timed() {
    best=
    for _ in 1 2 3; do
        start=$(date +%s%N)
        echo "$2" | "$3" > "$scratch/said"
        end=$(date +%s%N)
        [ "$(cat "$scratch/said")" = "$2 true" ] || { echo "$1 said $(cat "$scratch/said")"; exit 1; }
        took=$((end - start))
        if [ -z "$best" ] || [ "$took" -lt "$best" ]; then best=$took; fi
    done
    echo "$1, $2 threads: $((1000000000000000 / best)) a second"
}

for threads in 1 2 4; do
    timed turn "$threads" "$scratch/crates/turn_bench/out/turn_bench"
    timed Mutex "$threads" "$scratch/mutex"
done
