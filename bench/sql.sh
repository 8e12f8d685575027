#!/bin/sh
# Instructions of the built program for twenty selects of each kind over a table of 500 to 4,000 rows, and for twenty joins of 50 to 200 rows with as
# many; an update is made twenty times too. The table alone stands before each, to be taken off. Workers beside the session take some millions more
# or less, so a statement alone would not be seen.
. "$(dirname "$0")/count.sh"

# so many rows (k, v) in a table, k below a tenth of them, v all different, 200 rows a statement
rows() {
    awk -v n="$1" -v name="$2" 'BEGIN {
        for (i = 0; i < n; i++) {
            printf "%s(%d,%d)", (i % 200 == 0 ? (i ? "\n" : "") "INSERT INTO " name " VALUES " : ","), (i * 7919) % (n / 10), (i * 7907) % n
        }
        print ""
    }'
}

# a script over both tables with so many rows each, or in the first alone, and the statement
over() {
    printf 'SESSION a\nCREATE TABLE t(k INT, v INT)\nCREATE TABLE u(k INT, v INT)\n'
    rows "$1" t
    if [ "$2" = both ]; then rows "$1" u; fi
    for _ in 1 2 3 4 5 6 7 8 9 10 11 12 13 14 15 16 17 18 19 20; do printf '%s\n' "$3"; done
    printf 'COMMIT\n'
}

for n in 500 1000 2000 4000; do
    over "$n" one '' | count "$n rows, the table alone"
    over "$n" one 'SELECT COUNT(*) FROM t WHERE k > 5 AND NOT v < 100' | count "$n rows, filter"
    over "$n" one 'SELECT v FROM t ORDER BY v DESC LIMIT 1' | count "$n rows, sort"
    over "$n" one 'SELECT k, COUNT(*), SUM(v) FROM t GROUP BY k LIMIT 1' | count "$n rows, group"
    over "$n" one 'UPDATE t SET v = v + 1 WHERE k = 3' | count "$n rows, update"
done
for n in 50 100 200; do
    over "$n" both '' | count "$n by $n rows, the tables alone"
    over "$n" both 'SELECT COUNT(*) FROM t, u WHERE t.v = u.v' | count "$n by $n rows, join"
done
