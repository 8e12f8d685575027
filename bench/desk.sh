#!/bin/sh
# Instructions of each call of a desk, at few lines of the journal, snapshots, changed pages and pages, and at many of
# each alone: of begin and rollback, of a look and its end, of a read of a page in memory, changed or clean, of a
# transaction that edits and commits one page and of one that does 64, of a snapshot and one of 64 that captures them, of
# a batch of 64 filled and acknowledged, of a page written back, of one behind 64 that wait for their captures, and of a
# call that finds each changed page waiting. It needs valgrind.
cd "$(dirname "$0")/../crates/desk_bench" && rt run > /dev/null 2>&1 || exit 1
out=$(mktemp -d)
trap 'rm -rf "$out"' EXIT

at() {
    echo "$1 lines, $2 snapshots, $3 changed pages of $4"
    valgrind --tool=callgrind --callgrind-out-file="$out/count" out/desk_bench "$@" > /dev/null 2>&1
    callgrind_annotate --inclusive=yes --threshold=100 "$out/count" |
        sed -nE 's/^ *([0-9,]+) .*desk_bench::measured::(begin|rollback|look|unlook|read_changed|read_clean|change_1|change_64|capture_64|next_batch|ack|write_behind|write_back|waits)[: ].*/\2 \1/p' |
        awk -v left="$(($3 - 32))" '{
            gsub(",", "", $2)
            rounds = $1 ~ /_1$|_64$|^next_batch$|^ack$/ ? 16 : $1 == "waits" ? 1 : $1 == "write_behind" ? 32 : $1 == "write_back" && left < 100 ? left : 100
            printf "  %s %d\n", $1, $2 / rounds
        }'
}

at 1000 10 100 200
at 60000 10 100 200
at 1000 10000 100 200
at 1000 10 10000 20000
at 1000 10 100 60000
