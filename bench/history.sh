#!/bin/sh
# Instructions of building and reading a log of snapshots that roll on, one of one-page commits, and Maplogs of low
# marks over many mappings and over few; of filling the Maplog of the most slots on its device until no record fits, and
# of opening it; of joining captured pages with as many mappings; of reading, encoding and reading again the largest base
# and commit; and of opening a store from a log of commits. At a sixteenth of their full sizes and at these. It needs
# valgrind.
cd "$(dirname "$0")/../crates/history_bench" && rt run > /dev/null 2>&1 || exit 1
out=$(mktemp -d)
trap 'rm -rf "$out"' EXIT
for size in sixteenth ''; do
    valgrind --tool=callgrind --callgrind-out-file="$out/count" out/history_bench $size > /dev/null 2>&1
    callgrind_annotate --inclusive=yes --threshold=100 "$out/count" |
        sed -nE 's/^ *([0-9,]+) .*history_bench::[a-z]+::(rolling|capturing|growing|trimming|fill|listed|belongs|base_comes_back|commit_comes_back|joins)[: ].*/\2 \1/p'
done
