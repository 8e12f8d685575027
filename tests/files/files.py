#!/usr/bin/env python3
"""files.py PROGRAM: a store's files byte for byte, new, behind a run and behind two; damages, each refused; bytes that
are not read, whatever they are; a table at the end of its row numbers; and a log whose fifth write is refused.

The bytes are worked out from the formats; a store that was refused is left as it was. It works in a folder of its own
under the current one, and ends with status 1 at the first difference."""
import os
import resource
import shutil
import subprocess
import sys
import tempfile

PAGES, CAPACITY, HALF = 16, 64, 16_777_216
SIZES = {"log": 2 * HALF, "pages": 1024 * PAGES, "pagelog": 1024 * CAPACITY, "maplog": 2 * (32 * CAPACITY + 4096)}
# A region's open gate and generation, then records: gate, length and body; the closed gate of the next.
HEADER = "a5 00000000000000 0000000000000001"
BASE = "01 0001 00000010 00000040 0000000000000000 0000000000000000 00000001 00000000 00000000"
START = "01 0001 0000000000000000 00000040"
NEW = {"log": f"{HEADER} a5 00000027 {BASE} 00", "pages": "", "pagelog": "", "maplog": f"{HEADER} a5 0000000f {START} 00"}
# The one page that the second commit of the script changed, as the first left it: page 2, with one row, (1,'x').
RUN = "a5 0000000f 02 0000000000000000 00000001 0002 00"
ROW = "0000000000000000 02 01 0000000000000001 02 01 78"
HEAP = f"01 00 0001 00000000 0000000000000001 00000000 0015 {ROW}"
SCRIPT = """SESSION a
CREATE TABLE t(a INT, b TEXT)
INSERT INTO t VALUES (1,'x')
COMMIT WITH SNAPSHOT 'one'
INSERT INTO t VALUES (2,'y')
COMMIT
"""
# The same in two runs: what the first leaves of the page is copied by the second, which changes it.
FIRST = "PHASE\nSESSION a\nCREATE TABLE t(a INT, b TEXT);\nINSERT INTO t VALUES (1,'x');\nCOMMIT WITH SNAPSHOT 'one';\n"
FIRST_TEXT = "phase 1\nsession a\nitem 1\nok\nok 1\ncommitted as 1\njournal\n1 a 1 done as 1\n"
SECOND = "PHASE\nSESSION a\nINSERT INTO t VALUES (2,'y');\nCOMMIT;\n"
SECOND_TEXT = "phase 1\nsession a\nitem 1\nok 1\ncommitted\njournal\n1 a 1 done\n"
TEXT = "phase 1\nsession a\nitem 1\nok\nok 1\ncommitted as 1\nitem 2\nok 1\ncommitted\njournal\n1 a 1 done as 1\n1 a 2 done\n"
# A file, the bytes that are written at places of it, or how many bytes longer it is made, and what the refusal names.
DAMAGES = [
    ("log", {0: "00"}, "log at 0"),
    ("log", {HALF: "a5", HALF + 8: "0000000000000001"}, "log at 0"),
    ("log", {17: "ff"}, "log at 16"),
    ("log", {20: "28"}, "log at 16"),
    ("log", {23: "03"}, "log at 16"),
    ("log", {27: "0f"}, "log at 16"),
    ("log", -2 * HALF, "log at 0"),
    ("log", -1, "log at 33554431"),
    ("log", 1, "log at 33554433"),
    ("pages", -1, "pages at 16383"),
    ("pages", 1, "pages at 16385"),
    ("pagelog", -1, "pagelog at 65535"),
    ("maplog", -1, "maplog at 12287"),
    ("maplog", {0: "00"}, "maplog at 0"),
    ("maplog", {35: "41"}, "maplog at 16"),
    ("maplog", {31: "01"}, "maplog at 36"),
]
# Bytes that are not read: behind a region's open gate, from a closed gate on, in a closed region, behind the fields of the
# root page, and in slots that no capture has.
CLOSED = "5a a5 00000005 03 00000001"
UNREAD = {
    "log": {1: 7 * "ff", 60: CLOSED, HALF: f"5a {15 * 'ff'} {CLOSED}"},
    "pages": {12: 1012 * "ff"},
    "pagelog": {0: 65536 * "ff"},
    "maplog": {1: 7 * "ff", 36: CLOSED, 6144: f"5a {15 * 'ff'} {CLOSED}"},
}
# A table whose next row number is set to u64's last value but one, where it stands on page 2 and in the record of the
# commit that made it: that has the pages 0 to 2, each behind its number, behind gate, length and eight bytes more.
FIVE = "SESSION a\nCREATE TABLE t(a TEXT, b TEXT, c TEXT, d TEXT, e TEXT)\nINSERT INTO t VALUES ('1','','','','')\n"
FIVE += "COMMIT WITH SNAPSHOT 'one'\n"
FIVE_TEXT = "phase 1\nsession a\nitem 1\nok\nok 1\ncommitted as 1\njournal\n1 a 1 done as 1\n"
NEXT_NUMBER = {"log": 60 + 5 + 8 + 2 * 1026 + 2 + 8, "pages": 2048 + 8}
TOO_LONG = ",".join([*(4 * [f"'{200 * 'x'}'"]), f"'{82 * 'x'}'"])
# Statements on it, and their replies: numbers before the length of a row, and types before both.
AT_THE_END = [
    ("INSERT INTO t VALUES ('2','','','',''),('3','','','','')", "refused 23 Overflow"),
    (f"INSERT INTO t VALUES ({TOO_LONG})", "refused 24 RowTooLong 901"),
    ("INSERT INTO t VALUES ('2','','','','')", "ok 1"),
    ("INSERT INTO t VALUES ('3','','','','')", "refused 23 Overflow"),
    (f"INSERT INTO t VALUES ({TOO_LONG})", "refused 23 Overflow"),
    ("INSERT INTO t VALUES (3,'','','','')", "refused 22 WrongType"),
    ("UPDATE t SET e = 'z'", "ok 2"),
    ("DELETE FROM t WHERE a = '2'", "ok 1"),
    ("INSERT INTO t VALUES ('4','','','','')", "refused 23 Overflow"),
    ("SELECT a, e FROM t", "rows 1\n1,z"),
    ("COMMIT", "committed\nitem 2"),
    ("SELECT AS OF 1 a, e FROM t", "rows 1\n1,"),
]
END = "SESSION a\n" + "".join(f"{statement}\n" for statement, _ in AT_THE_END)
END_TEXT = "phase 1\nsession a\nitem 1\n" + "".join(f"{reply}\n" for _, reply in AT_THE_END)
END_TEXT += "journal\n1 a 1 done\n1 a 2 looked 1\n1 a 2 unlooked\n"
# A run whose third commit cannot write its record. An append writes a record from its length to the next gate, and then
# its own gate: so this is the log's fifth write. The gate behind FIRST is at 3151; a commit of one page has 1,035 bytes.
REFUSED_AT = 3151 + 2 * 1035 + 1
FOUR = "SESSION a\n" + "".join(f"INSERT INTO t VALUES ({n},'y')\nCOMMIT\n" for n in (2, 3, 4, 5))
FOUR += "SELECT AS OF 1 * FROM t\n"
FOUR_TEXT = """phase 1
session a
item 1
ok 1
committed
item 2
ok 1
committed
item 3
refused 2 DiskFault log 1
item 4
refused 16 Stopped log 1
item 5
rows 1
1,x
journal
1 a 1 done
1 a 2 done
1 a 3 fault log 1
1 a 4 refused 16
1 a 5 looked 1
1 a 5 unlooked
"""
# The next run over that store.
BEHIND = "SESSION a\nSELECT * FROM t\nINSERT INTO t VALUES (6,'y')\nCOMMIT\nSELECT AS OF 1 * FROM t\n"
BEHIND_TEXT = "phase 1\nsession a\nitem 1\nrows 3\n1,x\n2,y\n3,y\nok 1\ncommitted\nitem 2\nrows 1\n1,x\n"
BEHIND_TEXT += "journal\n1 a 1 done\n1 a 2 looked 1\n1 a 2 unlooked\n"


def ends(program, words, script, status, text, limit=None):
    """The program ends so. With a limit the system refuses it to write a file's bytes from that place on."""
    how = {"input": script.encode(), "stdout": subprocess.PIPE, "timeout": 110}
    if limit is not None:
        # Else the system ends the program there by a signal; Python has it ignored.
        how["restore_signals"] = False
        how["preexec_fn"] = lambda: resource.setrlimit(resource.RLIMIT_FSIZE, (limit, limit))
    ran = subprocess.run([program, *words], **how)
    if (ran.returncode, ran.stdout.decode()) != (status, text):
        sys.exit(f"{words}: status {ran.returncode} and not {status}, and it said {ran.stdout.decode()!r}, not {text!r}")


def shown(newest, captures):
    return f"version 1\npages {PAGES}\ncapacity {CAPACITY}\noldest 1\nnewest {newest}\ncaptures {captures}\n"


def held(folder):
    files = {}
    for name in sorted(os.listdir(folder)):
        with open(f"{folder}/{name}", "rb") as file:
            files[name] = file.read()
    return files


def hold(what, found, wanted):
    """Ends where bytes are not these; the wanted ones go on with zeros."""
    wanted = bytes.fromhex(wanted).ljust(len(found), b"\0")
    if found != wanted:
        at = next((at for at, (one, other) in enumerate(zip(found, wanted)) if one != other), len(wanted))
        sys.exit(f"{what}: at {at} {found[at:at + 16].hex(' ')} and not {wanted[at:at + 16].hex(' ')}")


def damage(folder, name, changes):
    with open(f"{folder}/{name}", "r+b") as file:
        if isinstance(changes, int):
            file.truncate(SIZES[name] + changes)
            return
        for place, text in changes.items():
            file.seek(place)
            file.write(bytes.fromhex(text))


def look_at_files(program):
    ends(program, ["format", "d", "16", "64"], "", 0, "formatted 16 64\n")
    files = held("d")
    if {name: len(files[name]) for name in files} != SIZES:
        sys.exit(f"the files are {[(name, len(files[name])) for name in files]}")
    for name, found in files.items():
        hold(f"a new {name}", found, NEW[name])
    shutil.copytree("d", "ran")
    ends(program, ["run", "ran"], SCRIPT, 0, TEXT)
    ends(program, ["show", "ran"], "", 0, shown(1, 1))
    files = held("ran")
    hold("maplog behind a run", files["maplog"], f"{NEW['maplog'][:-2]} {RUN}")
    hold("pagelog behind a run", files["pagelog"], HEAP)


def look_at_two_runs(program):
    shutil.copytree("d", "two")
    ends(program, ["run", "two"], FIRST, 0, FIRST_TEXT)
    first = held("two")
    hold("page 2 behind the first run", first["pages"][2048:3072], HEAP)
    hold("pagelog behind the first run", first["pagelog"], NEW["pagelog"])
    hold("maplog behind the first run", first["maplog"], NEW["maplog"])
    ends(program, ["run", "two"], SECOND, 0, SECOND_TEXT)
    second = held("two")
    if second["pages"][2048:3072] == first["pages"][2048:3072]:
        sys.exit("page 2 was not written back behind the second run")
    hold("pagelog behind the second run", second["pagelog"], HEAP)
    hold("maplog behind the second run", second["maplog"], f"{NEW['maplog'][:-2]} {RUN}")
    ends(program, ["show", "two"], "", 0, shown(1, 1))


def look_at_damages(program):
    for name, changes, place in DAMAGES:
        shutil.copytree("d", "hurt")
        damage("hurt", name, changes)
        before = held("hurt")
        for words, script in ((["show", "hurt"], ""), (["run", "hurt"], SCRIPT)):
            ends(program, words, script, 7, f"retro: not a store, {place}\n")
        if held("hurt") != before:
            sys.exit(f"{place}: the refused store was changed")
        shutil.rmtree("hurt")


def look_at_unread(program):
    shutil.copytree("d", "unread")
    for name, changes in UNREAD.items():
        damage("unread", name, changes)
    ends(program, ["show", "unread"], "", 0, shown(0, 0))
    ends(program, ["run", "unread"], SCRIPT, 0, TEXT)
    ends(program, ["show", "unread"], "", 0, shown(1, 1))


def look_at_last_number(program):
    shutil.copytree("d", "last")
    ends(program, ["run", "last"], FIVE, 0, FIVE_TEXT)
    files = held("last")
    for name, place in NEXT_NUMBER.items():
        hold(f"the next row number in {name}", files[name][place:place + 8], "0000000000000001")
        damage("last", name, {place: "fffffffffffffffe"})
    ends(program, ["run", "last"], END, 0, END_TEXT)
    place = NEXT_NUMBER["pages"]
    hold("the next row number behind the last row", held("last")["pages"][place:place + 8], "ffffffffffffffff")


def look_at_refused_write(program):
    shutil.copytree("d", "refused")
    ends(program, ["run", "refused"], FIRST, 0, FIRST_TEXT)
    hold("the gate behind the first run", held("refused")["log"][3151:3152], "00")
    ends(program, ["run", "refused"], FOUR, 6, FOUR_TEXT, REFUSED_AT)
    ends(program, ["run", "refused"], BEHIND, 0, BEHIND_TEXT)
    ends(program, ["show", "refused"], "", 0, shown(1, 1))
    ends(program, ["format", "small", "16", "64"], "", 6, "retro: disk fault on cabinet 1\n", REFUSED_AT)


def main():
    program = os.path.abspath(sys.argv[1])
    with tempfile.TemporaryDirectory(prefix="files-", dir=os.getcwd()) as room:
        os.chdir(room)
        look_at_files(program)
        look_at_two_runs(program)
        look_at_damages(program)
        look_at_unread(program)
        look_at_last_number(program)
        look_at_refused_write(program)
    print(f"{len(SIZES)} files, new, behind a run and behind two; {len(DAMAGES)} damages, each refused at its place;")
    print("bytes that are not read, the last row numbers, and a refused write of the log")


main()
