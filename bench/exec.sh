#!/bin/sh
# Instructions of four statements over ten thousand rows of two numbers: over plain tables, and over pages in memory. It
# needs valgrind.
cd "$(dirname "$0")/../crates/exec_bench" && rt run > /dev/null 2>&1 || exit 1
out=$(mktemp -d)
trap 'rm -rf "$out"' EXIT
# A part for each statement over either; those before the last eight make the tables.
valgrind --tool=callgrind --callgrind-out-file="$out/count" --dump-after='exec_bench::both::over_*' out/exec_bench compared > /dev/null 2>&1
part=83
for over in plain pages; do
    for statement in filter sum group update; do
        callgrind_annotate --inclusive=yes --threshold=100 "$out/count.$part" |
            sed -nE "s/^ *([0-9,]+) .*exec_bench::both::over_$over[: ].*/$statement over $over: \1/p"
        part=$((part + 1))
    done
done
