"""Every line that is one token away from one of these sentences: cut, put in, exchanged, or left off."""

from lexer import KEYWORDS
from script import LONGEST_LINE, class_of

SNAPSHOTS = "SELECT snap_id FROM SnapIds WHERE snap_id < 9 ORDER BY snap_id DESC LIMIT 1"
QUERY = "SELECT v , COUNT ( * ) AS c FROM t WHERE v = 1 GROUP BY v"
SENTENCES = (
    "CREATE TABLE u ( a INT , b TEXT )",
    "CREATE INDEX i ON t ( v )",
    "INSERT INTO t VALUES ( 'x' , - 1 ) , ( 'y' , 2 )",
    "UPDATE t SET v = v + 1 * ( 2 - v ) , k = 'x' WHERE NOT v = 1 AND ( k < 'x' OR v >= - 2 )",
    "DELETE FROM t WHERE t . v <> 1",
    "SELECT DISTINCT v + 1 AS a , t . k , - 3 FROM t , u WHERE v = 1 ORDER BY a ASC , t . k DESC LIMIT 3",
    "SELECT COUNT ( * ) , COUNT ( v ) , SUM ( v + 1 ) AS s , MIN ( k ) FROM t GROUP BY k , t . v ORDER BY s LIMIT 0",
    "SELECT * FROM t",
    "SELECT AS OF 1 CURRENT_SNAPSHOT ( ) , v FROM t",
    "SELECT snap_id AS a FROM SnapIds WHERE label = 'x' ORDER BY label",
    "DROP SNAPSHOTS BELOW 1",
    "COLLATEDATA ( 'SELECT-snap_id-FROM-SnapIds' , 'SELECT-v-FROM-t' , 'rql_a' )",
    "AGGREGATEDATAINVARIABLE ( 'SELECT-snap_id-FROM-SnapIds' , 'SELECT-v-FROM-t' , 'rql_a' , 'MIN' )",
)
ARGUMENTS = (SNAPSHOTS, QUERY, "rql_a", "( v , MAX ) , ( c , MIN )")
OTHERS = ["nm", "1", "'x'", "x" * 33, "9223372036854775808", "'" + "x" * 201 + "'", "?"]
SIGNS = ["(", ")", ",", ".", "*", "+", "-", "=", "<>", "<", "<=", ">", ">="]
FRONT = b"""SESSION a
CREATE TABLE t(k TEXT, v INT)
INSERT INTO t VALUES ('p',1),('q',5),('p',2)
COMMIT WITH SNAPSHOT 'one'
DELETE FROM t WHERE v = 5
COMMIT WITH SNAPSHOT
"""
LINES_OF_A_SCRIPT = 200


def edits(sentence):
    words = [word.replace("-", " ") if len(word) > 1 else word for word in sentence.split(" ")]
    for at in range(len(words) + 1):
        yield words[:at]
        yield words[:at] + words[at + 1 :]
        for token in sorted(KEYWORDS) + SIGNS + OTHERS:
            yield words[:at] + [token]
            yield words[:at] + [token] + words[at:]
            yield words[:at] + [token] + words[at + 1 :]


def call_with(place, text):
    texts = [*ARGUMENTS[:3], "(c,MAX)"]
    texts[place] = text
    return "AggregateDataInTable(" + ",".join("'" + one.replace("'", "''") + "'" for one in texts) + ")"


def all_lines():
    for sentence in SENTENCES:
        yield from (" ".join(words) for words in edits(sentence))
    for place, argument in enumerate(ARGUMENTS):
        yield from (call_with(place, " ".join(words)) for words in edits(argument))


def scripts_of_edits():
    """The scripts, each with its name: lines of transactions in one, single items in another."""
    held, count = {"single": [], "statement": []}, 0
    for line in all_lines():
        line = line.encode("ascii")
        kind = class_of(line)
        if kind in held and line and len(line) <= LONGEST_LINE:
            held[kind].append(line)
        for kind, lines in held.items():
            if len(lines) == LINES_OF_A_SCRIPT:
                yield "w%d" % count, script(kind, lines)
                held[kind], count = [], count + 1
    for kind, lines in held.items():
        yield "w%s" % kind, script(kind, lines)


def script(kind, lines):
    end = b"" if kind == "single" else b"ROLLBACK\n"
    return FRONT + b"".join(line + b"\n" for line in lines) + end
