"""Cases at each limit of the formats, and one above it.

cases() yields (name, files, status, test of the output). The limits stand in docs/FORMATS.md. A case with a schedule is a simulation, and each other one a run.
"""

APP = b"""table acct (id int, owner text, bal int) key (id) index (owner);
proc add(i int, o text, b int) { insert acct (i, o, b); }
"""
NO_BLOCKS = b"draft 1\n"
USAGE = b"refused usage\n"
SCHEDULE = b"schedule 1\n"
ARRIVAL = b"arrive 12\n"
STEPS = b"deliver\nclaim 1 due\nread 1\nfinish 1\ncommit\nseal\n"
NO_BLOCKS_REPORT = b"node 1\ntable acct\nheight 0\n"


def is_done(out):
    return out.endswith(b"\ndone\n")


def equals(wanted):
    return lambda out: out == wanted


def app_case(name, app, refusal=None):
    files = {"a.app": app, "b.draft": NO_BLOCKS}
    if refusal is None:
        return name, files, 0, is_done
    return name, files, 4, equals(b"refused application " + refusal + b"\n")


def draft_case(name, draft):
    return name, {"a.app": APP, "b.draft": draft}, 0, is_done


def stopped_case(name, draft, stop):
    """A draft whose fault stands in its first block."""
    return name, {"a.app": APP, "b.draft": draft}, 5, equals(NO_BLOCKS_REPORT + b"stopped " + stop + b"\n")


def schedule_case(name, schedule, bad=None):
    """A schedule that seals the one block of a draft, or its first bad line."""
    files = {"a.app": APP, "b.draft": NO_BLOCKS + block(1, [b'tx a1 0 add 1 "ann" 50\n']), "s": schedule}
    if bad is None:
        return name, files, 0, is_done
    return name, files, 10, equals(b"refused schedule line %d\n" % bad)


def table(name, columns, keys=1, indexes=0):
    listed = b", ".join(b"c%d int" % n for n in range(columns))
    key = b", ".join(b"c%d" % n for n in range(keys))
    index = b" index (%s)" % b", ".join(b"c%d" % n for n in range(indexes)) if indexes else b""
    return b"table %s (%s) key (%s)%s;\n" % (name, listed, key, index)


def tables(count):
    return b"".join(table(b"t%d" % n, 1) for n in range(count))


def procedures(count):
    return b"".join(b"proc p%d() { }\n" % n for n in range(count))


def procedure(params):
    return b"proc p(%s) { }\n" % b", ".join(b"a%d int" % n for n in range(params))


def inserted_text(length):
    return b'table t (x1 text) key (x1);\nproc p() { insert t ("%s"); }\n' % (b"a" * length)


def inserted_bytes(length):
    return b'table t (x1 bytes) key (x1);\nproc p() { insert t (x"%s"); }\n' % (b"0f" * length)


def padded(length):
    return APP + b" " * (length - len(APP))


def block(number, lines):
    return b"block %d\n" % number + b"".join(lines) + b"end\n"


def transactions(count):
    return NO_BLOCKS + block(1, [b'tx a%d 0 add %d "ann" 50\n' % (n, n) for n in range(1, count + 1)])


def empty_blocks(count):
    return NO_BLOCKS + b"".join(b"block %d\nend\n" % n for n in range(1, count + 1))


def line_of(length):
    """A transaction line of a length, without its newline, with texts of at most 255 bytes as arguments."""
    line = b"tx a1 0 add"
    while length - len(line) > 3:
        room = min(255, length - len(line) - 3)
        if 0 < length - len(line) - 3 - room < 3:
            room -= 3
        line += b' "%s"' % (b"a" * room)
    assert len(line) == length, len(line)
    return NO_BLOCKS + block(1, [line + b"\n"])


def argument(text):
    return NO_BLOCKS + block(1, [b"tx a1 0 add 1 " + text + b" 50\n"])


def cases():
    yield app_case("64 tables", tables(64))
    yield app_case("65 tables", tables(65), b"65 Limit")
    yield app_case("32 columns", table(b"t", 32))
    yield app_case("33 columns", table(b"t", 33), b"1 Limit")
    yield app_case("8 key columns", table(b"t", 9, keys=8))
    yield app_case("9 key columns", table(b"t", 9, keys=9), b"1 Limit")
    yield app_case("8 indexed columns", table(b"t", 9, indexes=8))
    yield app_case("9 indexed columns", table(b"t", 9, indexes=9), b"1 Limit")
    yield app_case("256 procedures", procedures(256))
    yield app_case("257 procedures", procedures(257), b"257 Limit")
    yield app_case("16 parameters", procedure(16))
    yield app_case("17 parameters", procedure(17), b"1 Limit")
    yield app_case("a name of 32 bytes", table(b"t" * 32, 1))
    yield app_case("a name of 33 bytes", table(b"t" * 33, 1), b"1 Syntax")
    yield app_case("a text of 255 bytes", inserted_text(255))
    yield app_case("a text of 256 bytes", inserted_text(256), b"2 Syntax")
    yield app_case("bytes of 255 pairs", inserted_bytes(255))
    yield app_case("bytes of 256 pairs", inserted_bytes(256), b"2 Syntax")
    yield app_case("an application of 1,048,576 bytes", padded(1048576))
    yield app_case("an application of 1,048,577 bytes", padded(1048577), b"0 TooLong")
    yield draft_case("1,024 transactions", transactions(1024))
    yield stopped_case("1,025 transactions", transactions(1025), b"1027 TooManyTx")
    yield draft_case("a line of 4,096 bytes", line_of(4096))
    yield stopped_case("a line of 4,097 bytes", line_of(4097), b"3 LineTooLong")
    yield draft_case("an argument of 255 bytes", argument(b'"%s"' % (b"a" * 255)))
    yield stopped_case("an argument of 256 bytes", argument(b'"%s"' % (b"a" * 256)), b"3 BadLine")
    yield draft_case("an id of 32 bytes", NO_BLOCKS + block(1, [b"tx %s 0 nope\n" % (b"a" * 32)]))
    yield stopped_case("an id of 33 bytes", NO_BLOCKS + block(1, [b"tx %s 0 nope\n" % (b"a" * 33)]), b"3 BadLine")
    yield draft_case("1,000,000 blocks", empty_blocks(1000000))
    many = {"a.app": APP, "b.draft": empty_blocks(1000001)}
    yield "1,000,001 blocks", many, 5, lambda out: out.endswith(b"\nheight 1000000\nstopped 2000002 WrongNumber\n")
    yield stopped_case("a header of 4,096 bytes", b"a" * 4096 + b"\n", b"1 BadHeader")
    yield stopped_case("a header of 4,097 bytes", b"a" * 4097, b"1 LineTooLong")
    yield stopped_case("4,096 bytes without a newline", b"a" * 4096, b"1 Truncated")
    yield stopped_case("a line of 4,097 bytes without a newline", NO_BLOCKS + b"block 1\n" + b"a" * 4097, b"3 LineTooLong")
    yield schedule_case("1,000,000 steps", SCHEDULE + b"seal\n" * 999994 + STEPS)
    yield schedule_case("1,000,001 steps", SCHEDULE + b"seal\n" * 1000001, 1000002)
    yield schedule_case("a bad step and two million bytes after it", SCHEDULE + b"deliver\nnope\n" + b"x" * 2097152, 3)
    yield schedule_case("a step of 4,096 bytes that is none", SCHEDULE + ARRIVAL * 6552 + b"a" * 4096 + b"\n" + ARRIVAL * 10000, 6554)
    yield schedule_case("4,097 bytes of a step, and no newline", SCHEDULE + b"a" * 4097 + b"b" * 200000, 2)
    # 65,536 bytes end within the 6,553rd arrival
    yield schedule_case("a step in two pieces", SCHEDULE + ARRIVAL * 20000 + STEPS)
    yield schedule_case("a bad step in two pieces", SCHEDULE + ARRIVAL * 6552 + b"arrive xy\n" + b"seal\n" * 30000, 6554)
    yield schedule_case("a last step without a newline, after two pieces", SCHEDULE + ARRIVAL * 13000 + b"seal", 13002)
