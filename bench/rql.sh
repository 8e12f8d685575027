#!/bin/sh
# Instructions of each of the four calls over a thousand and over ten thousand answers of a hundred rows (of one row for the
# values in one), the answers' own among them. It needs valgrind.
cd "$(dirname "$0")/../crates/rql_bench" && rt run > /dev/null 2>&1 || exit 1
out=$(mktemp -d)
trap 'rm -rf "$out"' EXIT
valgrind --tool=callgrind --callgrind-out-file="$out/count" --dump-after='rql_bench::sum_of*' out/rql_bench > /dev/null 2>&1
for part in 1 2; do
    echo "part $part"
    callgrind_annotate --inclusive=yes --threshold=100 "$out/count.$part" |
        sed -nE 's/^ *([0-9,]+) .*rql_bench::(rows_of|groups_of|intervals_of|sum_of)[: ].*/\2 \1/p'
done
