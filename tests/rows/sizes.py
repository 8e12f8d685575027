"""Cases of many rows, keys, snapshots and pages: each answers a script, its transcript, and files beside."""
from collections import Counter

from texts import inserted, lines_of, looked, rows_of, transcript

FIFTY = ",".join(f"({v})" for v in range(1, 51))


def large():
    """A hundred pages of the values from 1 to 50, of which the greatest is raised by 1 before each of fifty snapshots, and
    then each of the two ways to ask all of them, the two others over all rows of the last three, and a condition as deep as
    its line is long. Each update but the first captures every page."""
    every, last = "'SELECT snap_id FROM SnapIds'", "'SELECT snap_id FROM SnapIds WHERE snap_id > 47'"
    script = "SESSION a\nCREATE TABLE t(v INT)\n" + 100 * f"INSERT INTO t VALUES {FIFTY}\n" + "COMMIT\n"
    script += 50 * "UPDATE t SET v = v + 1 WHERE v > 49\nCOMMIT WITH SNAPSHOT\n"
    script += f"AggregateDataInVariable({every},'SELECT SUM(v) FROM t','rql_v','SUM')\nSELECT value FROM rql_v\n"
    script += f"CollateData({every},'SELECT v FROM t WHERE v > 45','rql_c')\n"
    script += "SELECT COUNT(*), SUM(v), MIN(v), MAX(v) FROM rql_c\n"
    script += f"AggregateDataInTable({last},'SELECT v, 1 FROM t','rql_t','(col2,SUM)')\nSELECT * FROM rql_t\n"
    script += f"CollateDataIntoIntervals({last},'SELECT v FROM t','rql_i')\nSELECT * FROM rql_i\n"
    script += "SELECT AS OF 25 COUNT(*) FROM t WHERE " + 2000 * "(" + "v = 1" + 2000 * ")" + "\n"
    asked = range(1, 51)
    total = sum(100 * (sum(range(1, 50)) + 50 + n) for n in asked)
    above = sum(100 * (46 + 47 + 48 + 49 + 50 + n) for n in asked)
    items = ["ok\n" + 100 * "ok 50\n" + "committed", *(f"ok 100\ncommitted as {n}" for n in asked), "ok 1", f"rows 1\n{total}"]
    items += ["ok 25000", f"rows 1\n25000,{above},46,100"]
    items += ["ok 52", rows_of([*((v, 300) for v in range(1, 50)), (98, 100), (99, 100), (100, 100)])]
    items += ["ok 52", rows_of([*((v, 48, 50) for v in range(1, 50)), (98, 48, 48), (99, 49, 49), (100, 50, 50)])]
    items += ["rows 1\n100"]
    journal = ["1 done", *(f"{n + 1} done as {n}" for n in asked), *looked(52, "all"), *looked(54, "all")]
    journal += [*looked(56, "all"), *looked(58, "all"), *looked(60, 25)]
    shown = "version 1\npages 128\ncapacity 16384\noldest 1\nnewest 50\ncaptures 4900\n"
    return script, transcript(items, journal), {"args": "run\n", "store": "128 16384\n", "shown": shown}


def thousand():
    """A thousand rows, the greatest twenty of them raised by 1 before each of 120 snapshots, and two calls over all of these:
    the sum of all rows as of each, and the hundred rows above 45."""
    every = "'SELECT snap_id FROM SnapIds'"
    script = "SESSION a\nCREATE TABLE t(v INT)\n" + 20 * f"INSERT INTO t VALUES {FIFTY}\n" + "COMMIT\n"
    script += 120 * "UPDATE t SET v = v + 1 WHERE v > 49\nCOMMIT WITH SNAPSHOT\n"
    script += f"AggregateDataInVariable({every},'SELECT SUM(v) FROM t','rql_v','SUM')\nSELECT value FROM rql_v\n"
    script += f"CollateData({every},'SELECT v FROM t WHERE v > 45','rql_c')\n"
    script += "SELECT COUNT(*), SUM(v), MIN(v), MAX(v) FROM rql_c"
    asked = range(1, 121)
    total = sum(20 * 1275 + 20 * n for n in asked)
    above = sum(20 * (46 + 47 + 48 + 49 + 50 + n) for n in asked)
    items = ["ok\n" + 20 * "ok 50\n" + "committed", *(f"ok 20\ncommitted as {n}" for n in asked)]
    items += ["ok 1", f"rows 1\n{total}", "ok 12000", f"rows 1\n12000,{above},46,170"]
    journal = ["1 done", *(f"{n + 1} done as {n}" for n in asked), *looked(122, "all"), *looked(124, "all")]
    return script, transcript(items, journal), {"args": "run\n", "store": "64 4096\n"}


def many_rows():
    """5,000 rows whose values are 0 to 4,999 in a mixed order: sorted, told apart, joined with five on either side, indexed,
    changed, taken out and grouped."""
    rows, five = [(i % 50, i * 7919 % 5000) for i in range(5000)], [(k, 3 * k + 1) for k in (3, 17, 29, 41, 60)]
    left = [(k, v + 5000 if k < 25 else v) for k, v in rows]
    left = [(k, v) for k, v in left if v >= 2500]
    of = lambda k, found: [v for key, v in found if key == k]
    below = ((k, [v for key, v in rows if key < k]) for k, _ in five)
    groups = ((k, of(k, left)) for k in dict.fromkeys(k for k, _ in left))
    added, added_replies = inserted("t", rows, 250)
    asked = {
        "SELECT k, v FROM t ORDER BY v": rows_of(sorted(rows, key=lambda row: row[1])),
        "SELECT v FROM t ORDER BY k DESC, v LIMIT 150": rows_of([(v,) for k in (49, 48) for v in sorted(of(k, rows))][:150]),
        "SELECT DISTINCT k FROM t": rows_of((k,) for k in range(50)),
        "SELECT DISTINCT v FROM t ORDER BY v DESC LIMIT 3": rows_of([(4999,), (4998,), (4997,)]),
        "SELECT t.v, u.w FROM t, u WHERE t.k = u.k": rows_of((v, w) for k, v in rows for key, w in five if k == key),
        "SELECT u.k, COUNT(*), SUM(t.v) FROM t, u WHERE t.k < u.k GROUP BY u.k": rows_of((k, len(v), sum(v)) for k, v in below),
        "SELECT u.k, COUNT(*) FROM u, t WHERE u.k = t.k GROUP BY u.k": rows_of((k, 100) for k, _ in five if k < 50),
        "CREATE INDEX i ON t(v)": "ok",
        "SELECT k, v FROM t WHERE v >= 4900": rows_of(row for row in rows if row[1] >= 4900),
        "SELECT v, COUNT(*) FROM t GROUP BY v ORDER BY v DESC LIMIT 3": rows_of((v, 1) for v in (4999, 4998, 4997)),
        "UPDATE t SET v = v + 5000 WHERE k < 25": "ok 2500",
        "DELETE FROM t WHERE v < 2500": f"ok {5000 - len(left)}",
        "SELECT k, COUNT(*), SUM(v), MAX(v) FROM t GROUP BY k": rows_of((k, len(v), sum(v), max(v)) for k, v in groups),
    }
    script = "SESSION a\nCREATE TABLE t(k INT, v INT)\nCREATE TABLE u(k INT, w INT)\n"
    script += lines_of([*added, *inserted("u", five, 5)[0], *asked, "COMMIT WITH SNAPSHOT"])
    script += "DELETE FROM t\nSELECT COUNT(*), SUM(v) FROM t\nCOMMIT\nSELECT AS OF 1 COUNT(*), SUM(v) FROM t\n"
    script += "SELECT AS OF 1 k, v FROM t\n"
    items = ["\n".join(["ok", "ok", *added_replies, "ok 5", *asked.values(), "committed as 1"])]
    items += [f"ok {len(left)}\nrows 1\n0,0\ncommitted", rows_of([(len(left), sum(v for _, v in left))]), rows_of(left)]
    return script, transcript(items, ["1 done as 1", "2 done", *looked(3, 1), *looked(4, 1)]), {"args": "run\n", "store": "512 4096\n"}


def many_keys():
    """All numbers of five digits from 0 to 3, in a mixed order, sorted by their digits upwards and downwards in turn; and a
    thousand rows of one INSERT."""
    digits = [tuple(number // 4**at % 4 for at in range(5)) for number in (i * 37 % 1024 for i in range(1024))]
    added, added_replies = inserted("d", digits, 256)
    ordered = sorted(digits, key=lambda row: [digit if at % 2 == 0 else -digit for at, digit in enumerate(row)])
    tens = "INSERT INTO t VALUES " + ",".join(f"({i % 10})" for i in range(1000))
    asked = {
        "SELECT * FROM d ORDER BY a, b DESC, c, d DESC, e": rows_of(ordered),
        "CREATE TABLE t(v INT)": "ok",
        tens: "ok 1000",
        "SELECT v, COUNT(*) FROM t GROUP BY v": rows_of((v, 100) for v in range(10)),
    }
    script = "SESSION a\n" + lines_of(["CREATE TABLE d(a INT, b INT, c INT, d INT, e INT)", *added, *asked, "COMMIT"])
    items = ["\n".join(["ok", *added_replies, *asked.values(), "committed"])]
    return script, transcript(items, ["1 done"]), {"args": "run\n", "store": "256 4096\n"}


def many_intervals():
    """3,000 different rows, a third of them changed before a second snapshot, a fifth taken out before a third, and nothing
    changed before a fourth; the calls that keep rows apart, over the four."""
    first = [(i % 50, i * 7919 % 3000) for i in range(3000)]
    second = [(k, v + 3000 if v < 1000 else v) for k, v in first]
    third = [row for row in second if row[0] >= 10]
    answers = [first, second, third, third]
    stands = [set(answer) for answer in answers]
    starts = [(at, row) for at, answer in enumerate(answers) for row in answer if at == 0 or row not in stands[at - 1]]
    end = lambda at, row: at if at == 3 or row not in stands[at + 1] else end(at + 1, row)
    intervals = rows_of((*row, at + 1, end(at, row) + 1) for at, row in starts)
    values = [v for answer in answers for _, v in answer]
    counts = rows_of(Counter(values).items())
    added, added_replies = inserted("t", first, 250)
    every, snapshot = "'SELECT snap_id FROM SnapIds'", "COMMIT WITH SNAPSHOT"
    changes = ["UPDATE t SET v = v + 3000 WHERE v < 1000", snapshot, "DELETE FROM t WHERE k < 10", snapshot, snapshot]
    calls = [f"CollateDataIntoIntervals({every},'SELECT k, v FROM t','rql_i')", "SELECT * FROM rql_i"]
    calls += [f"AggregateDataInTable({every},'SELECT k, v FROM t','rql_t','(k,COUNT)')", "SELECT v, k FROM rql_t"]
    script = "SESSION a\n" + lines_of(["CREATE TABLE t(k INT, v INT)", *added, snapshot, *changes, *calls])
    items = ["\n".join(["ok", *added_replies, "committed as 1"]), "ok 1000\ncommitted as 2", "ok 600\ncommitted as 3"]
    items += ["committed as 4", f"ok {len(starts)}", intervals, f"ok {len(set(values))}", counts]
    journal = [*(f"{n} done as {n}" for n in range(1, 5)), *looked(5, "all"), *looked(7, "all")]
    return script, transcript(items, journal), {"args": "run\n", "store": "256 4096\n"}


def long_answers():
    """40,000 rows of two snapshots: an answer has them all, a table of answers twice as many, and the transcript is longer
    than four million bytes."""
    rows, select = [(v,) for v in range(60_000, 100_000)], "SELECT v FROM t"
    added, added_replies = inserted("t", rows, 500)
    asked = 20 * [select]
    script = "SESSION a\nCREATE TABLE t(v INT)\n"
    script += lines_of([*added, "COMMIT WITH SNAPSHOT", "UPDATE t SET v = v + 1 WHERE v < 60100", "COMMIT WITH SNAPSHOT", *asked])
    script += f"COMMIT\nCollateData('SELECT snap_id FROM SnapIds','{select}','rql_c')\n"
    script += "SELECT COUNT(*), SUM(v), MIN(v) FROM rql_c\n"
    answer = rows_of((v + (v < 60_100),) for (v,) in rows)
    items = ["\n".join(["ok", *added_replies, "committed as 1"]), "ok 100\ncommitted as 2"]
    items += ["\n".join([*(20 * [answer]), "committed"]), "ok 80000"]
    items += [rows_of([(80_000, 2 * sum(v for (v,) in rows) + 100, 60_000)])]
    journal = ["1 done as 1", "2 done as 2", "3 done", *looked(4, "all")]
    return script, transcript(items, journal), {"args": "run\n", "store": "4096 4096\n"}


def wide_work():
    """Forty tables, of which two have 150 rows each, and sixteen columns: joined with each other, all columns told, grouped by
    three of them, expressions counted, and a long condition over an indexed column."""
    columns = [f"c{at}" for at in range(16)]
    left = [(i, i % 3, i % 5, *range(13)) for i in range(150)]
    right = [(i + 100, i % 2, *(14 * [i])) for i in range(150)]
    pairs = [(one, other) for one in left for other in right if one[0] == other[0]]
    three = Counter((one[1], one[2], one[3]) for one in left)
    some = range(0, 150, 4)
    deep, above = " OR ".join(f"c0 = {n}" for n in some), [n for n in some if n >= 75]
    of_l, of_r = (inserted(name, rows, 50) for name, rows in (("l", left), ("r", right)))
    asked = {
        "SELECT * FROM l, r WHERE l.c0 = r.c0": rows_of(one + other for one, other in pairs),
        "SELECT COUNT(*) FROM l, r WHERE l.c0 < r.c0": rows_of([(sum(one[0] < other[0] for one in left for other in right),)]),
        "SELECT COUNT(c0 + c1) FROM l": rows_of([(150,)]),
        "SELECT c3, COUNT(*), COUNT(c0 - c1) FROM l GROUP BY c3": rows_of([(0, 150, 150)]),
        "SELECT c1, c2, c3, COUNT(*) FROM l GROUP BY c1, c2, c3": rows_of((*key, count) for key, count in three.items()),
        "CREATE INDEX i ON l(c0)": "ok",
        f"SELECT COUNT(*), SUM(c0) FROM l WHERE c0 >= 75 AND ({deep})": rows_of([(len(above), sum(above))]),
    }
    made = [f"CREATE TABLE t{at}(a INT)" for at in range(38)]
    made += [f"CREATE TABLE {name}({', '.join(f'{column} INT' for column in columns)})" for name in "lr"]
    script = "SESSION a\n" + lines_of([*made, *of_l[0], *of_r[0], *asked, "COMMIT"])
    text = "\n".join([*(40 * ["ok"]), *of_l[1], *of_r[1], *asked.values(), "committed"])
    return script, transcript([text], ["1 done"]), {"args": "run\n", "store": "512 4096\n"}


CASES = (
    large,
    thousand,
    many_rows,
    many_keys,
    many_intervals,
    long_answers,
    wide_work,
)
