#!/bin/sh
# Instructions of the calls on one heap table, of a thousand rows of 60 bytes and of ten thousand: all inserts, a scan, a change of one row, a change of
# all rows and a delete of every second one, the last two each in one draft. It needs valgrind.
cd "$(dirname "$0")/../crates/heap_bench" && rt run > /dev/null 2>&1 || exit 1
out=$(mktemp -d)
trap 'rm -rf "$out"' EXIT
valgrind --tool=callgrind --callgrind-out-file="$out/count" --dump-after='heap_bench::work::delete_half*' out/heap_bench > /dev/null 2>&1
for part in 1 2; do
    echo "part $part"
    callgrind_annotate --inclusive=yes --threshold=100 "$out/count.$part" |
        sed -nE 's/^ *([0-9,]+) .*heap_bench::work::(insert|scanned|update_one|update_all|delete_half)[: ].*/\2 \1/p'
done
