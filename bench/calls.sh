#!/bin/sh
# Instructions of the built program for each of the four calls over a hundred and over a thousand snapshots of a table of a
# hundred rows, of which one changes between two snapshots; and of the calls' queries asked as of each snapshot in turn, an
# item each. Those of the script without them are taken off. Of each call it tells, too, what is spent within it, in the
# queries as of the snapshots, in the session's own steps (the look, the list of snapshots, each answer handed on, the
# reply) and, as what is left, in rql and rql_intervals. It needs valgrind.
cd "$(dirname "$0")/../crates/retro" && rt run -- run < stdin > /dev/null 2>&1 || exit 1
script=$(mktemp)
count=$(mktemp)
trap 'rm -f "$script" "$count"' EXIT

# a table of a hundred rows, so many snapshots of it, and a last line
over() {
    awk -v snapshots="$1" -v last="$2" 'BEGIN {
        printf "SESSION a\nCREATE TABLE t(k INT, v INT)\nINSERT INTO t VALUES (0,0)"
        for (k = 1; k < 100; k++) printf ",(%d,0)", k
        print ""
        for (n = 0; n < snapshots; n++) printf "UPDATE t SET v = v + 1 WHERE k = %d\nCOMMIT WITH SNAPSHOT\n", n % 100
        print last
    }' > "$script"
    valgrind --tool=callgrind --callgrind-out-file="$count" out/retro run < "$script" 2>&1 > /dev/null | awk '/refs/ { gsub(",", "", $NF); print $NF }'
}

# a query as of each of so many snapshots
each() {
    awk -v snapshots="$1" -v query="$2" 'BEGIN { for (n = 1; n <= snapshots; n++) printf "SELECT AS OF %d %s\n", n, query }'
}

# what the last call counted was spent on
split() {
    callgrind_annotate --inclusive=yes --threshold=100 "$count" | awk '
        { gsub(",", "", $1) }
        / [^ ]*session::calling::call[: ]/ { call += $1 }
        / [^ ]*sql_exec::asking::ask[: ]/ { ask += $1; own -= $1 }
        / [^ ]*session::asking::LookAsOfAsOf::answer[: ]/ { own += $1 }
        / [^ ]*(session::calling::(numbers_listed|result_of)|session::ending::finish|store::held::HeldSeat::look_all)[: ]/ { own += $1 }
        END { printf "    within it: %d, in its queries: %d, in the session: %d, in rql: %d\n", call, ask, own, call - ask - own }'
}

for snapshots in 100 1000; do
    without=$(over "$snapshots" '')
    echo "no call, $snapshots snapshots: $without"
    list="'SELECT snap_id FROM SnapIds'"
    for call in "CollateData($list,'SELECT k, v FROM t','rql_c')" \
        "AggregateDataInVariable($list,'SELECT SUM(v) FROM t','rql_v','SUM')" \
        "AggregateDataInTable($list,'SELECT k, v FROM t','rql_t','(v,MAX)')" \
        "CollateDataIntoIntervals($list,'SELECT k, v FROM t','rql_i')"; do
        echo "${call%%(*}, $snapshots snapshots: $(($(over "$snapshots" "$call") - without))"
        split
    done
    for query in 'k, v FROM t' 'SUM(v) FROM t'; do
        echo "SELECT $query as of each of $snapshots: $(($(over "$snapshots" "$(each "$snapshots" "$query")") - without))"
    done
done
