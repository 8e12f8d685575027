#!/bin/sh
# Instructions of the calls of an archive of which each slot is taken: of each search of a page in a table that covers all
# mappings, at 1,024 and at 262,144 of these, and at 65,536 of each that finds one and reads all its bytes; of each batch of
# 64 and of each single capture entered, and of each trim of 64 mappings, at 65,536 and at 1,048,576; of the capture at which
# the list is written anew, at 8,192 and at 1,048,576. Then what an opening of 1,048,576 mappings takes in instructions, and
# with the filling before it in seconds. It needs valgrind.
cd "$(dirname "$0")/../crates/archive_bench" && rt run > /dev/null 2>&1 || exit 1

count() {
    valgrind --tool=callgrind --callgrind-out-file=/dev/null out/archive_bench "$@" 2>&1 | awk '/refs/ { gsub(",", "", $NF); print $NF }'
}

# What each of so many calls takes beyond the first ones.
each() {
    echo "$1 $2: $((($(count "$1" "$2" "$4") - $(count "$1" "$2" "$3")) / ($4 - $3))) instructions"
}

each find 1024 1 1001
each find 262144 1 1001
each read 65536 1 1001
for slots in 65536 1048576; do
    each enter "$slots" 0 4096
    each enter-one "$slots" 0 4096
    each trim "$slots" 0 512
done
# Single captures fit behind the list up to these numbers, as half a Maplog has 4,096 bytes and 32 for each slot.
each enter-one 8192 7279 7280
each enter-one 1048576 916659 916660
echo "open 1048576: $(($(count open 1048576 0) - $(count enter 1048576 0))) instructions"
for call in enter open; do
    echo "$call 1048576: $( { time -p out/archive_bench "$call" 1048576 0 > /dev/null; } 2>&1 | awk '/user/ { print $2 }') s"
done
