#!/bin/sh
# Instructions of each call of a store in memory, at few pages and snapshots and at many of each: of a transaction that
# writes a page and declares a snapshot, of one that declares none, of an entry to the desk, of a read of a page in
# memory, of one that is not, and of a page as of a snapshot, by a table that covers all captures. Then how often a
# second they are made over the files of a folder, a new one under the current one. It needs valgrind.
folder=$(mktemp -d -p .)
folder=$(realpath "$folder")
trap 'rm -rf "$folder"' EXIT
cd "$(dirname "$0")/../crates/store_bench" && rt run > /dev/null 2>&1 || exit 1

calls='commit_with_snapshot|commit_plain|enter|read|fetch|recall'

# The instructions of so many calls of each kind at so many pages and snapshots.
count() {
    valgrind --tool=callgrind --callgrind-out-file="$folder/count" out/store_bench all "$@" > /dev/null 2>&1
    callgrind_annotate --inclusive=yes --threshold=100 "$folder/count" |
        sed -nE "s/^ *([0-9,]+) .*store_bench::measured::($calls)[: ].*/\\2 \\1/p" |
        tr -d ,
}

# What each of 1,000 calls takes beyond the first one.
at() {
    echo "$1 pages, $2 snapshots"
    count 1 "$@" > "$folder/one"
    count 1001 "$@" | awk -v one="$folder/one" '
        BEGIN { while ((getline < one) > 0) first[$1] = $2 }
        { printf "  %s %d\n", $1, ($2 - first[$1]) / 1000 }'
}

at 4000 10
at 60000 10
at 4000 10000
at 60000 10000

# The seconds of so many calls over files, with the making of the store.
seconds() {
    { time -p out/store_bench "$1" "$2" 10000 10 "$folder/store" > /dev/null; } 2>&1 | awk '/real/ { print $2 }'
}

# How many a second, without the making of the store.
rate() {
    few=$(seconds "$1" 1)
    many=$(seconds "$1" "$2")
    awk -v what="$1" -v more="$(($2 - 1))" -v few="$few" -v many="$many" \
        'BEGIN { printf "  %s %d a second\n", what, more / (many - few) }'
}

echo "over files, 10000 pages, 10 snapshots"
rate commits 2001
rate plain 2001
rate reads 1000001
rate fetches 4001
rate recalls 1000001
