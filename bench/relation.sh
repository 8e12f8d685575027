#!/bin/sh
# Instructions of each statement on a table of a thousand rows and of ten thousand, and of reading a catalog of twenty tables and
# of two hundred. It needs valgrind.
cd "$(dirname "$0")/../crates/relation_bench" && rt run > /dev/null 2>&1 || exit 1
out=$(mktemp -d)
trap 'rm -rf "$out"' EXIT
valgrind --tool=callgrind --callgrind-out-file="$out/count" --dump-after='relation_bench::catalog_of*' out/relation_bench > /dev/null 2>&1
for part in 1 2; do
    echo "part $part"
    callgrind_annotate --inclusive=yes --threshold=100 "$out/count.$part" |
        sed -nE 's/^ *([0-9,]+) .*relation_bench::(insert_rows|scan|update_one|update_rows|delete_half|delete_latter_half|read_catalog)[: ].*/\2 \1/p'
done
