"""Scripts at the limits of a script and of a journal."""

LINE = 4096
SCRIPT = 4194304


def sessions(count):
    return b"".join(b"SESSION s%d\nCOMMIT\n" % place for place in range(count))


def comments(total):
    """Lines of comment, as long as they may be, of this many bytes in all."""
    full, rest = divmod(total, LINE + 1)
    return (b"#" * LINE + b"\n") * full + b"#" * rest


def full_journal():
    """More items than the journal has lines for, in phases of a session each, and then single items that need one
    line, two, or none."""
    out, items = [], 0
    while items < 32766:
        count = min(144, 32766 - items)
        items += count
        out.append(b"PHASE\nSESSION %c\n" % b"abcdefghijklmnop"[items % 16] + b"COMMIT\n" * count)
    out.append(b"PHASE\nSESSION a\nCOMMIT WITH SNAPSHOT\nDROP SNAPSHOTS BELOW 1\nSELECT * FROM rql_a\nCOMMIT\n")
    out.append(b"PHASE\nSESSION b\nCollateData('','','')\nSELECT * FROM rql_a\nSELECT AS OF 9 * FROM t\nSELECT AS OF\n")
    out.append(b"PHASE\nSESSION c\nSELECT * FROM SnapIds\nCOMMIT\n")
    return b"".join(out)


def deep(depth):
    ups, downs = b"(" * depth, b")" * depth
    lines = [b"SESSION a", b"CREATE TABLE t(a INT)", b"INSERT INTO t VALUES (1),(2)"]
    lines.append(b"SELECT " + ups + b"a" + downs + b" FROM t")
    lines.append(b"SELECT a FROM t WHERE " + ups + b"a=1" + downs)
    lines.append(b"SELECT a FROM t WHERE " + b"NOT " * (depth // 2) + b"a=1")
    lines.append(b"SELECT a" + b"+1" * depth + b" FROM t")
    lines.append(b"SELECT " + b"(a+" * (depth // 2) + b"a" + b")" * (depth // 2) + b" FROM t")
    lines.append(b"SELECT " + ups + b"a" + downs[1:] + b" FROM t")
    return b"\n".join(lines + [b"COMMIT", b""])


def edges():
    """The scripts, each with its name."""
    yield "e_empty", b""
    yield "e_blank", b"\n \n;\n# x\n--\n"
    yield "e_sessions_16", sessions(16)
    yield "e_sessions_17", sessions(17)
    yield "e_phases_4096", b"PHASE\n" * 4096
    yield "e_phases_4097", b"PHASE\n" * 4097
    yield "e_items_65537", b"SESSION a\n" + b"COMMIT\n" * 65537
    yield "e_line_4096", b"SESSION a\n" + b"COMMIT".ljust(LINE) + b"\r\nCOMMIT\n"
    yield "e_line_4097", b"SESSION a\n" + b"COMMIT".ljust(LINE + 1) + b"\nCOMMIT\n"
    yield "e_line_4097_open", b"SESSION a\n" + b"COMMIT".ljust(LINE) + b"\r"
    yield "e_script_whole", comments(SCRIPT)
    yield "e_script_longer", comments(SCRIPT + 1)
    yield "e_script_longer_line", comments(SCRIPT - 8) + b"\nPHASE\nPHASE\n"
    yield "e_full_journal", full_journal()
    yield "e_deep", deep(1000)
