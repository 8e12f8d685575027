"""Cases at the limits of scripts, journals, archives and names: each answers a script, its transcript, and files beside."""
from texts import inserted, lines_of, looked, replies, rows_of, transcript


def full_archive():
    """One row, raised by 1 before each snapshot: update k captures its page for the kth time, and the 65th finds no slot
    until snapshot 1 is dropped. Snapshot n has the value n - 1."""
    raised = "UPDATE t SET v = v + 1\nCOMMIT WITH SNAPSHOT\n"
    script = "SESSION a\nCREATE TABLE t(v INT)\nINSERT INTO t VALUES (0)\nCOMMIT WITH SNAPSHOT\n" + 65 * raised
    script += "DROP SNAPSHOTS BELOW 2\n" + raised + "SELECT AS OF 2 * FROM t\nSELECT AS OF 66 * FROM t\n"
    items = ["ok\nok 1\ncommitted as 1", *(f"ok 1\ncommitted as {n}" for n in range(2, 66)), "refused 12 ArchiveFull 65 64"]
    items += ["dropped below 2", "ok 1\ncommitted as 66", "rows 1\n1", "rows 1\n65"]
    journal = [*(f"{n} done as {n}" for n in range(1, 66)), "66 refused 12", "67 dropped below 2", "68 done as 66"]
    shown = "version 1\npages 16\ncapacity 64\noldest 2\nnewest 66\ncaptures 65\n"
    return script, transcript(items, [*journal, *looked(69, 2), *looked(70, 66)]), {"args": "run\nstore\n", "shown": shown}


def full_journal():
    """As many commits with a snapshot as the journal has room for, at two lines each, beside a list and two sums of all
    their numbers, a drop of all but the newest, and a look at it and at a dropped one: two of the 65,534 lines are left. A
    refused drop takes one, a call needs two, and what stands behind a call that was cut short is not run, also a call that
    the grammar refuses. The next phase has one line left."""
    count = 32_761
    call = "CollateData('SELECT snap_id FROM SnapIds','SELECT 1 FROM t','rql_c')"
    ids, numbers = "SELECT snap_id FROM SnapIds", "'SELECT current_snapshot() FROM t'"
    script = "SESSION a\nCREATE TABLE t(v INT)\nINSERT INTO t VALUES (1)\n" + count * "COMMIT WITH SNAPSHOT\n"
    asked = ["SELECT COUNT(*), SUM(snap_id), MIN(snap_id) FROM SnapIds"]
    for these, name in ((f"'{ids}'", "rql_v"), (f"'{ids} WHERE snap_id > 0'", "rql_w")):
        asked += [f"AggregateDataInVariable({these},{numbers},'{name}','SUM')", f"SELECT * FROM {name}"]
    asked += [f"DROP SNAPSHOTS BELOW {count}", f"SELECT AS OF {count} v, current_snapshot() FROM t", "SELECT AS OF 1 * FROM t"]
    script += lines_of([*asked, "DROP SNAPSHOTS BELOW 0", call, "SELECT * FROM rql_c", "COMMIT"])
    script += "PHASE\nSESSION b\nSELECT * FROM rql_v\nDROP SNAPSHOTS BELOW 0\nDROP SNAPSHOTS BELOW 0\n"
    script += "CollateData('x','y','z')\nCOMMIT\n"
    cut_short, no_such, total = "refused 13 JournalFull", f"refused 9 NoSuchSnapshot 0 {count}", count * (count + 1) // 2
    items = ["ok\nok 1\ncommitted as 1", *(f"committed as {n}" for n in range(2, count + 1)), rows_of([(count, total, 1)])]
    items += [*(2 * ["ok 1", rows_of([(total,)])]), f"dropped below {count}", rows_of([(1, count)])]
    items += [f"refused 10 Dropped 1 {count}", no_such, cut_short, "not run", "not run"]
    second = replies(["refused 20 UnknownName", no_such, cut_short, "not run", "not run"])
    journal = [*(f"{n} done as {n}" for n in range(1, count + 1))]
    journal += [line for n in (1, 2, 4) for line in looked(count + n, "all")]
    journal += [f"{count + 6} dropped below {count}", *looked(count + 7, count), f"{count + 8} refused 10"]
    journal = "".join(f"1 a {line}\n" for line in [*journal, f"{count + 9} refused 9"]) + "2 b 2 refused 9\n"
    text = f"phase 1\nsession a\n{replies(items)}phase 2\nsession b\n{second}journal\n{journal}"
    return script, text, {"args": "run\n"}


def most_calls():
    """As many calls as the journal has room for, at two lines each, over one snapshot and each under a name of its own; then
    every result table is asked."""
    numbers = range(1, 32_767)
    call = "CollateData('SELECT snap_id FROM SnapIds','SELECT {0} FROM t','rql_{0}')"
    script = "SESSION a\nCREATE TABLE t(v INT)\nINSERT INTO t VALUES (1)\nCOMMIT WITH SNAPSHOT\n"
    script += lines_of([*map(call.format, numbers), *(f"SELECT * FROM rql_{n}" for n in numbers)])
    items = ["ok\nok 1\ncommitted as 1", *("ok 1" for _ in numbers), *(rows_of([(n,)]) for n in numbers)]
    journal = ["1 done as 1", *(line for n in numbers for line in looked(n + 1, "all"))]
    return script, transcript(items, journal), {"args": "run\n"}


def wide_calls():
    """Calls over twelve snapshots of a row that is raised before each: three hundred columns, as many columns told by pairs
    as a line has room for, and a hundred result tables of one session, the last of which takes the place of the first."""
    columns, paired = lambda count: ",".join("v+0" for _ in range(count)), range(1, 226)
    pairs = ",".join(f"(col{at},{('MIN', 'MAX', 'SUM', 'COUNT')[at % 4]})" for at in paired)
    of_pair = lambda at: (1, 12, 78, 12)[at % 4]
    every, upto = "'SELECT snap_id FROM SnapIds'", lambda n: f"'SELECT snap_id FROM SnapIds WHERE snap_id <= {n}'"
    collated = [f"CollateData({every},'SELECT {columns(300)} FROM t','rql_w')", "SELECT * FROM rql_w"]
    folded = [f"AggregateDataInTable({every},'SELECT {columns(len(paired))} FROM t','rql_p','{pairs}')", "SELECT * FROM rql_p"]
    tables = [f"CollateData({upto(n % 13)},'SELECT v FROM t','rql_{n % 99}')" for n in range(1, 101)]
    asked = [f"SELECT COUNT(*) FROM rql_{n}" for n in range(99)]
    script = "SESSION a\nCREATE TABLE t(v INT)\nINSERT INTO t VALUES (0)\nCOMMIT\n"
    script += 12 * "UPDATE t SET v = v + 1\nCOMMIT WITH SNAPSHOT\n" + lines_of([*collated, *folded, *tables, *asked])
    counts = {n % 99: n % 13 for n in range(1, 101)}
    items = ["ok\nok 1\ncommitted", *(f"ok 1\ncommitted as {n}" for n in range(1, 13))]
    items += ["ok 12", rows_of(300 * (n,) for n in range(1, 13)), "ok 1", rows_of([map(of_pair, paired)])]
    items += [f"ok {n % 13}" for n in range(1, 101)]
    items += [rows_of([(counts[n],)]) for n in range(99)]
    journal = ["1 done", *(f"{n + 1} done as {n}" for n in range(1, 13)), *looked(14, "all"), *looked(16, "all")]
    journal += [line for n in range(100) for line in looked(18 + n, "all")]
    return script, transcript(items, journal), {"args": "run\n"}


def most_phases():
    """4,096 phases of one session each, as many as a script may have."""
    script = "SESSION a\nCREATE TABLE t(v INT)\nINSERT INTO t VALUES (0)\nCOMMIT\n"
    script += 4094 * "PHASE\nSESSION a\nUPDATE t SET v = v + 1\nCOMMIT\n" + "PHASE\nSESSION b\nSELECT v FROM t\nCOMMIT\n"
    parts = ["ok\nok 1\ncommitted", *(4094 * ["ok 1\ncommitted"]), "rows 1\n4094\ncommitted"]
    names = [*(4095 * "a"), "b"]
    text = "".join(f"phase {at}\nsession {name}\nitem 1\n{part}\n" for at, (name, part) in enumerate(zip(names, parts), 1))
    journal = "".join(f"{at} {name} 1 done\n" for at, name in enumerate(names, 1))
    return script, f"{text}journal\n{journal}", {"args": "run\n"}


def most_items():
    """65,536 items, as many as a session may have, in a script of 4,194,304 bytes, as many as it may have: selects of a
    result table that is not there, which leave no line in the journal, a filter as long as its line among them, and a
    statement in the last item."""
    filters = 700 * [f"SELECT * FROM rql_x WHERE {2000 * '('}a = 1{2000 * ')'}"]
    lines = [*filters, *((65_535 - len(filters)) * ["SELECT * FROM rql_x"]), "CREATE TABLE t(v INT)", "COMMIT"]
    script = "SESSION a\n" + lines_of(lines)
    script += "\n" * (4_194_304 - len(script))
    items = [*(65_535 * ["refused 20 UnknownName"]), "ok\ncommitted"]
    return script, transcript(items, ["65536 done"]), {"args": "run\n"}


def most_statements():
    """A transaction of 60,000 statements, each of which raises a row by 1."""
    count = 60_000
    script = "SESSION a\nCREATE TABLE t(v INT)\nINSERT INTO t VALUES (0)\nCOMMIT\n"
    script += count * "UPDATE t SET v = v + 1\n" + "SELECT v FROM t\nCOMMIT\n"
    items = ["ok\nok 1\ncommitted", count * "ok 1\n" + f"rows 1\n{count}\ncommitted"]
    return script, transcript(items, ["1 done", "2 done"]), {"args": "run\n"}


def long_journal():
    """One row, raised by 1 before each of 150 snapshots, and a look at the 75th. Each raise but the first captures the
    page; 304 lines are in the journal, of which those of the beginnings are not shown."""
    script = "SESSION a\nCREATE TABLE t(v INT)\nINSERT INTO t VALUES (0)\nCOMMIT\n"
    script += 150 * "UPDATE t SET v = v + 1\nCOMMIT WITH SNAPSHOT\n" + "SELECT AS OF 75 * FROM t\n"
    items = ["ok\nok 1\ncommitted", *(f"ok 1\ncommitted as {n}" for n in range(1, 151)), "rows 1\n75"]
    journal = ["1 done", *(f"{n + 1} done as {n}" for n in range(1, 151)), *looked(152, 75)]
    shown = "version 1\npages 64\ncapacity 1000\noldest 1\nnewest 150\ncaptures 149\n"
    return script, transcript(items, journal), {"args": "run\nstore\n", "store": "64 1000\n", "shown": shown}


def longest_line():
    """Lines of 4,096 bytes: a call whose argument fills it, and an INSERT of as many texts as it has room for."""
    call = "CollateData('SELECT snap_id FROM SnapIds','SELECT a FROM t WHERE a = 1" + 446 * " OR a = 2" + "  ','rql_c')"
    texts = "INSERT INTO txt VALUES " + ",".join(679 * ["('a')"])
    assert len(call) == len(texts) == 4096
    script = f"SESSION a\nCREATE TABLE t(a INT)\nINSERT INTO t VALUES (1),(2),(3)\nCOMMIT WITH SNAPSHOT\n{call}\n"
    script += f"CREATE TABLE txt(a TEXT)\n{texts}\nSELECT a, COUNT(*) FROM txt GROUP BY a\nCOMMIT\n"
    items = ["ok\nok 3\ncommitted as 1", "ok 2", f"ok\nok 679\n{rows_of([('a', 679)])}\ncommitted"]
    return script, transcript(items, ["1 done as 1", *looked(2, "all"), "3 done"]), {"args": "run\n"}


def longest_names():
    """A table of sixteen columns, and an index, whose names have 32 bytes, as many as a name may have, and differ in the last
    one alone. Five rows have the numbers from 0 to 4 in each even column and the letters from a to e in each odd one, each
    column in an order of its own. The table is asked whole, backwards, in the order of each column and by the index; then each
    column takes what the next but one had, and the table is asked as of before and behind that."""
    table, index, *names = (f"a_name_as_long_as_one_may_ever_{it}" for it in "ti0123456789abcdef")
    assert {len(name) for name in (table, index, *names)} == {32}
    of_column = lambda row, at: "abcde"[(2 * row + at // 2) % 5] if at % 2 else (3 * row + at // 2) % 5
    rows = [[of_column(row, at) for at in range(16)] for row in range(5)]
    moved = [[*row[2:], row[0] + 100, "z"] for row in rows]
    made = ",".join(f"{name} {('INT', 'TEXT')[at % 2]}" for at, name in enumerate(names))
    moves = ",".join(f"{name}={there}" for name, there in zip(names, [*names[2:], f"{names[0]}+100", "'z'"]))
    backwards, turned = lambda front: ",".join(front + name for name in names[::-1]), rows_of(row[::-1] for row in rows)
    in_order = lambda at: rows_of(sorted(rows, key=lambda row: row[at]))
    asked = {
        f"SELECT * FROM {table}": rows_of(rows),
        f"SELECT {backwards('')} FROM {table}": turned,
        f"SELECT {backwards(f'{table}.')} FROM {table}": turned,
        **{f"SELECT * FROM {table} ORDER BY {name}": in_order(at) for at, name in enumerate(names)},
        f"CREATE INDEX {index} ON {table}({names[15]})": "ok",
        f"SELECT {names[0]} FROM {table} WHERE {names[15]}='d'": rows_of(row[:1] for row in rows if row[15] == "d"),
    }
    changed = {f"UPDATE {table} SET {moves}": "ok 5", f"SELECT * FROM {table}": rows_of(moved)}
    added, added_replies = inserted(table, rows, 5)
    snapshot, ends = "COMMIT WITH SNAPSHOT", [f"SELECT AS OF {n} * FROM {table}" for n in (1, 2)]
    statements = [f"CREATE TABLE {table}({made})", *added, *asked, snapshot, *changed, snapshot, *ends]
    items = ["\n".join(["ok", *added_replies, *asked.values(), "committed as 1"])]
    items += ["\n".join([*changed.values(), "committed as 2"]), rows_of(rows), rows_of(moved)]
    journal = ["1 done as 1", "2 done as 2", *looked(3, 1), *looked(4, 2)]
    return "SESSION a\n" + lines_of(statements), transcript(items, journal), {"args": "run\n"}


def wide_rows():
    """1,100 rows of 852 bytes, each on a page of its own, so that their chain passes a thousand pages: added by two
    transactions, 900 of them changed and ten taken out by a third; all of them at once are too many pages for a fourth."""
    letters = "abcdefghijklmnopqrstuvwxyz"
    rows = [(i, *(4 * [200 * letters[i % 26]]), 24 * letters[i % 26]) for i in range(1100)]
    first, first_replies = inserted("w", rows[:552], 4)
    second, second_replies = inserted("w", rows[552:], 4)
    told = lambda found: rows_of([(len(found), sum(found), min(found), max(found))])
    of_all, every = "COUNT(*), SUM(id), MIN(id), MAX(id) FROM w", "'SELECT snap_id FROM SnapIds'"
    left = [*range(910, 1100), *range(10_000, 10_900)]
    groups = ((200 * letter, sum(i % 26 == at for i in range(1100))) for at, letter in enumerate(letters))
    asked = {
        f"SELECT {of_all}": told(range(1100)),
        "SELECT id, e FROM w WHERE id > 1096": rows_of((i, 24 * letters[i % 26]) for i in (1097, 1098, 1099)),
        "SELECT d, COUNT(*) FROM w GROUP BY d": rows_of(groups),
        "UPDATE w SET id = id + 10000 WHERE id < 900": "ok 900",
        "DELETE FROM w WHERE id < 910": "ok 10",
    }
    snapshot, ends = "COMMIT WITH SNAPSHOT", [f"SELECT AS OF {n} {of_all}" for n in (1, 2, 3)]
    ends += [f"AggregateDataInVariable({every},'SELECT COUNT(*) FROM w','rql_v','SUM')", "SELECT value FROM rql_v"]
    script = "SESSION a\nCREATE TABLE w(id INT, a TEXT, b TEXT, c TEXT, d TEXT, e TEXT)\n"
    script += lines_of([*first, snapshot, *second, snapshot, *asked, snapshot, "UPDATE w SET id = id + 1", "COMMIT", *ends])
    items = ["\n".join(["ok", *first_replies, "committed as 1"]), "\n".join([*second_replies, "committed as 2"])]
    items += ["\n".join([*asked.values(), "committed as 3"]), "refused 15 TooManyPages 1025", told(range(552))]
    items += [told(range(1100)), told(left), "ok 1", rows_of([(552 + 1100 + 1090,)])]
    journal = ["1 done as 1", "2 done as 2", "3 done as 3", "4 refused 15"]
    journal += [*looked(5, 1), *looked(6, 2), *looked(7, 3), *looked(8, "all")]
    return script, transcript(items, journal), {"args": "run\n", "store": "2048 4096\n"}


def deep():
    """An expression of 1,019 steps and a condition under 1,017 NOTs, each as long as its line. An odd number of `1 - ..` is one
    of them, and an odd number of NOTs is one."""
    one_less, no = 1019 * "1-(" + "v" + 1019 * ")", 1017 * "NOT "
    statements = ["CREATE TABLE t(v INT)", "INSERT INTO t VALUES (5),(-7),(11)", f"SELECT {one_less} FROM t"]
    statements += [f"SELECT v FROM t WHERE {no}v = 5", f"UPDATE t SET v = {one_less}", f"DELETE FROM t WHERE {no}v = 8"]
    replies = ["ok", "ok 3", rows_of([(-4,), (8,), (-10,)]), rows_of([(-7,), (11,)]), "ok 3", "ok 2", rows_of([(8,)])]
    script = "SESSION a\n" + lines_of([*statements, "SELECT * FROM t", "COMMIT"])
    return script, transcript(["\n".join([*replies, "committed"])], ["1 done"]), {"args": "run\n"}


CASES = (
    full_archive,
    full_journal,
    most_calls,
    wide_calls,
    most_phases,
    most_items,
    most_statements,
    long_journal,
    longest_line,
    longest_names,
    wide_rows,
    deep,
)
