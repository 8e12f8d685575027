#!/bin/sh
# Instructions of one seat that makes 1,000 rounds of four entries each, and 11,000, so that the difference by 40,000 is an
# entry's; and the wall time of 640,000 entries of one seat, and of 2, 4 and 8 seats in threads of their own. It needs valgrind.
cd "$(dirname "$0")/../crates/turn_bench" && rt run > /dev/null 2>&1 || exit 1

count() {
    valgrind --tool=callgrind --callgrind-out-file=/dev/null out/turn_bench "$@" 2>&1 | awk -v what="$*" '/refs/ { print what ": " $NF " instructions"; next } !/^==/'
}

count 1 1000
count 1 11000
for seats in 1 2 4 8; do
    time -p out/turn_bench "$seats" $((160000 / seats))
done
