#!/bin/sh
# Instructions of the built program over a store in a folder: for one commit more that inserts a row and declares a snapshot,
# for one query more that sums a column as of a snapshot, and for the opening of a store with 201 snapshots. It needs valgrind.
cd "$(dirname "$0")/../crates/retro" && rt run -- run < stdin > /dev/null 2>&1 || exit 1
room=$(mktemp -d)
trap 'rm -rf "$room"' EXIT

commits() {
    awk -v count="$1" 'BEGIN {
        print "SESSION a\nCREATE TABLE t(k INT, v INT)\nCOMMIT WITH SNAPSHOT"
        for (k = 0; k < count; k++) printf "INSERT INTO t VALUES (%d,%d)\nCOMMIT WITH SNAPSHOT\n", k, k * k
    }'
}

sums() {
    awk -v count="$1" 'BEGIN { print "SESSION a"; for (s = 1; s <= count; s++) printf "SELECT AS OF %d SUM(v) FROM t\n", s }'
}

# the instructions of a script, read from standard input, over a store of that name
over() {
    valgrind --tool=callgrind --callgrind-out-file=/dev/null out/retro run "$room/$1" 2>&1 > /dev/null | awk '/refs/ { gsub(",", "", $NF); print $NF }'
}

for store in a b c; do
    out/retro format "$room/$store" 256 16384 > /dev/null
done
few=$(commits 1000 | over a)
many=$(commits 2000 | over b)
echo "a commit with a snapshot: $(((many - few) / 1000))"
commits 200 | out/retro run "$room/c" > /dev/null
few=$(sums 100 | over c)
many=$(sums 200 | over c)
echo "a sum as of one of the snapshots 101 to 200, of as many rows: $(((many - few) / 100))"
echo "opening with 201 snapshots: $(over c < /dev/null)"
