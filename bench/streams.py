"""Order requests of FIX 4.2 and FIX 4.4 and reports of FIX 5.0 SP2 made from a seed: those of the
timed streams, and those of --compare, with refusals of both sides.

A message is a list of fields, each a pair of bytes: a tag, and a value. What stops the fields of a
body is a pair whose tag is all of it and whose value is None.
"""
import collections
import random

# A line of docs/REQUESTS.md for each field: its tag, the kind of its values, and what D, F, G and H
# say of it; then those of a refusal by the client. A group has its count here; GROUPS has what
# stands in its lines.
REQUESTS = """
11 id RRRR      41 id -RR-     37 id -ooo        109 id oooo      76 id oooo       439 id o-o-
1 id oooo       78 group o-o-  63 0123456789 o-o-  64 day o-o-    21 123 R-R-      18 some o-o-
110 qty o-o-    111 qty o-o-   100 id o-o-       386 group o-o-   55 id RRRR       65 id oooo
48 id oooo      22 123456789 oooo  167 word oooo  200 month oooo  205 dom oooo     207 id oooo
54 123456 RRRR  114 flag o-o-  60 stamp RRR-     38 qty RoR-      40 12345B R-R-   44 price o-o-
99 price o-o-   15 money o-o-  59 0123456 o-o-   168 stamp o-o-   432 day o-o-     126 stamp o-o-
47 byte o-o-    77 OC o-o-     58 text ooo-
"""
# The same for a client of FIX 4.4, with the codes that FIX 5.0 SP2 has, too.
REQUESTS_44 = """
11 id RRRR      41 id -RR-     37 id -ooo        453 group oooo   1 id oooo        78 group o-o-
63 0123456789 o-o-  64 day o-o-  21 123 o-o-     18 some o-o-     110 qty o-o-     111 qty o-o-
100 id o-o-     386 group o-o- 55 id RRRR        65 id oooo       48 id oooo       22 123456789 oooo
167 word oooo   200 month oooo 541 day oooo      207 id oooo      54 123456 RRRR   114 flag o-o-
60 stamp RRR-   38 qty RoR-    40 1234 R-R-      44 price o-o-    99 price o-o-    15 money o-o-
59 0123456 o-o- 168 stamp o-o- 432 day o-o-      126 stamp o-o-   528 byte o-o-    77 OC o-o-
58 text ooo-
"""
REFUSALS = """
45 number RR    371 number o-  372 id oR       373 number o-     379 id -o         380 number -R
58 text oo
"""

# The same of docs/REPORTS.md: what 8, 9, 3 and j say of each field.
REPORTS = """
37 id RR--      198 id oo--    11 id oR--      41 id oR--        453 group o---    382 group o---
17 id R---      19 id o---     150 FFFFFF000345678GHILABCDE R---  39 000111246AE RR--
103 reason o--- 378 reason o--- 1 id oo--      63 0123456789 o--- 64 day o---      55 id R---
65 id o---      48 id o---     22 123456789 o---  167 word o---   200 month o---    541 day o---
207 id o---     54 123456 R--- 38 qty o---     40 1234 o---      44 price o---     99 price o---
15 money o---   59 01234567 o---  432 day o--- 126 fine o---     528 AIP o---      32 qty o---
31 price o---   30 id o---     151 qty R---    14 qty R---       6 price R---      75 day o---
60 fine oo--    110 qty o---   1138 qty o---   434 12 -R--       102 reason -o--   45 number --Ro
371 number --o- 372 id --oR    373 number --o- 379 id ---o       380 number ---R   58 text oooo
"""


def rows_of(table, kinds):
    words = table.split()
    return [(tag.encode(), kind, dict(zip(kinds, needs)))
            for tag, kind, needs in zip(words[::3], words[1::3], words[2::3])]


# What a side sends: how a frame begins, its table, and the groups of it: by the tag of a count that
# of the field that begins a line, and those of the others with their chances.
Side = collections.namedtuple("Side", "begin rows kinds header_tags groups members codes")
HEADER = [b"49", b"56", b"34", b"52"]
HEADER_TAGS = [b"49", b"56", b"34", b"43", b"97", b"52", b"122", b"35", b"50", b"57", b"142",
               b"143", b"347", b"369"]
CODES = [b"", b"0", b"7", b"9", b"B", b"12", b" 1", b"1 ", b"a", b"C", b"OC"]


def side_of(begin, rows, header_tags, groups, members, codes):
    kinds = {tag: kind for tag, kind, _ in rows}
    return Side(begin, rows, kinds, header_tags, groups, members, codes)


CLIENT = side_of(b"8=FIX.4.2", rows_of(REQUESTS, "DFGH"), HEADER_TAGS,
                 {b"78": (b"79", {b"80": 0.7}), b"386": (b"336", {})},
                 {b"79": "id", b"80": "qty", b"336": "id"}, CODES)
CLIENT_REFUSALS = CLIENT._replace(rows=rows_of(REFUSALS, "3j"))
CLIENT_44 = side_of(b"8=FIX.4.4", rows_of(REQUESTS_44, "DFGH"), HEADER_TAGS,
                    {b"453": (b"448", {b"447": 0.9, b"452": 1, b"802": 0.05}), **CLIENT.groups},
                    {b"448": "id", b"447": "D", b"452": "placed", b"802": "id", **CLIENT.members},
                    CODES + [b"5", b"D"])
# A j of FIX 4.4 may leave out its number.
CLIENT_44_REFUSALS = CLIENT_44._replace(rows=rows_of(REFUSALS.replace("RR ", "Ro ", 1), "3j"))
VENUE = side_of(b"8=FIXT.1.1", rows_of(REPORTS, "893j"), HEADER_TAGS + [b"1128"],
                {b"453": (b"448", {b"447": 0.9, b"452": 1, b"802": 0.05}),
                 b"382": (b"375", {b"337": 0.5, b"437": 0.5, b"438": 0.5, b"655": 0.05})},
                {b"448": "id", b"447": "D", b"452": "role", b"802": "id", b"375": "id",
                 b"337": "id", b"437": "qty", b"438": "fine", b"655": "id"},
                CODES + [b"1", b"6", b"E", b"F", b"G", b"H", b"I", b"J", b"K", b"L", b"M"])

# Values as clients write them, and good ones that few write.
USUAL = {
    "id": [b"A1", b"FUND", b"IBM", b"XNYS", b"ACC-17", b"US4592001014", b"20240102-0007"],
    "text": [b"by phone", b"please work this order over the day"],
    "some": [b"1", b"6", b"1 G", b"2 5 6"],
    "qty": [b"100", b"2500", b"75", b"12000"],
    "price": [b"10.5", b"101.25", b"99", b"0.0125"],
    "stamp": [b"20240102-10:00:00", b"20240102-10:00:00.125"],
    "day": [b"20240104", b"20241231"],
    "month": [b"202406", b"202412"],
    "dom": [b"21", b"7"],
    "money": [b"USD", b"EUR"],
    "flag": [b"Y", b"N"],
    "byte": [b"A", b"I", b"P"],
    "word": [b"CS", b"PS", b"FUT"],
    "number": [b"2", b"41", b"1007"],
    "reason": [b"0", b"1", b"3", b"99"],
    "role": [b"1", b"3", b"4", b"17"],
    "placed": [b"1", b"3"],
}
RARE = {
    "id": [b"x" * 128, b" ", b"=", b"\xff\x80", b"8=FIX.4.2"],
    "text": [b"t" * 2048, b"a=b", b"10=000"],
    "some": [b"1 1", b"1 2 3 4 5 6 G", b"G"],
    "qty": [b"0", b"-0", b"-0.00", b"00100", b"5.", b".5", b"100.00", b"999999999999999",
            b"0" * 30 + b".5", b"0.12345678", b"1234567.12345678", b"010.500", b"0.00000001"],
    "price": [b"-1", b"-0", b"-.5", b"-001.10", b"-5.", b"123456789012345", b"-1234567.12345678",
              b"0" * 31 + b"1", b"1." + b"0" * 30],
    "stamp": [b"20240229-23:59:60", b"00000229-00:00:00", b"99991231-23:59:59.999",
              b"20000229-00:00:60.000"],
    "day": [b"20240229", b"20000229", b"00000101", b"00000229", b"99991231"],
    "month": [b"202402", b"000001", b"202302", b"999912", b"190002"],
    "dom": [b"1", b"01", b"28", b"29", b"30", b"31", b"9"],
    "money": [b"XXX", b"ZZZ"],
    "number": [b"0", b"0002", b"1000000000", b"0000000001"],
    "reason": [b"0099", b"4", b"5", b"6", b"8", b"9", b"9999", b"0000000008"],
    "role": [b"03", b"0", b"1000000000", b"001"],
    "placed": [b"03", b"4", b"001", b"4", b"0000000003", b"17"],
}
# Values that are empty, of wrong form, out of range, or outside the profile.
BAD = {
    "id": [b"", b"x" * 129, b"y" * 2000],
    "text": [b"", b"t" * 2049],
    "some": [b"", b" ", b"1 ", b" 1", b"1  2", b"7", b"1 77", b"12", b"1 7 ", b"g", b"1\t2"],
    "qty": [b"", b"-1", b"+1", b"1e3", b"-", b".", b"-.", b"1.2.3", b"1.123456789", b"--1", b"1-",
            b"1234567890123456", b"12345678.12345678", b"0" * 32 + b"1", b"-0.00000001", b"1,5",
            b" 1", b"0" * 33, b"123456789012345.1", b"- 1", b"0.123456789", b"0.1234567800"],
    "stamp": [b"", b"20240230-00:00:00", b"20240102-24:00:00", b"20240102-10:60:00",
              b"20240102-10:00:61", b"20240102 10:00:00", b"20240102-10:00", b"20240102-10:00:00.",
              b"20240102-10:00:00.1", b"20240102-10:00:00.1234", b"20241302-10:00:00",
              b"20240002-10:00:00", b"20240100-10:00:00", b"20230229-10:00:00",
              b"19000229-10:00:00", b"2024010a-10:00:00", b"20240102-1a:00:00", b"x",
              b"20240102-10:00:00,123", b"20240102-10.00:00", b"20240230-24:00:0x"],
    "day": [b"", b"20240230", b"20241301", b"20240001", b"20240100", b"2024010", b"202401011",
            b"2024-1-1", b"20230229", b"21000229", b"abcdefgh"],
    "month": [b"", b"202413", b"202400", b"20246", b"2024061", b"2024W1", b"20240621", b"2024 1"],
    "dom": [b"", b"0", b"00", b"32", b"99", b"31", b"30", b"29", b"a", b"1a", b"001", b"-1", b" 1"],
    "money": [b"", b"usd", b"US", b"USDX", b"US1", b"Us$"],
    "flag": [b"", b"y", b"YN", b"1"],
    "byte": [b"", b"AA", b"J", b"a", b" ", b"Z", b"\xff"],
    "word": [b"", b"C", b"CSX", b"cs", b"OPT", b"FUTX"],
    "number": [b"", b"x", b"-1", b"1000000001", b"9999999999", b"00000000001", b"1.", b" 1"],
    "reason": [b"", b"x", b"-1", b"10000", b"9999999999", b"00000000001", b"1.", b" 1"],
    "role": [b"", b"x", b"-1", b"1000000001", b"00000000001", b"1.", b" 1"],
}
# A moment of the venue may be fine: it may have six or nine digits of the second.
FINE = [b"20240102-10:00:00.125999", b"20240102-10:00:00.125999999"]
USUAL["fine"] = USUAL["stamp"] + FINE
RARE["fine"] = RARE["stamp"] + [b"99991231-23:59:60.999999999", b"00000229-00:00:00.000001"]
BAD["fine"] = BAD["stamp"] + [b"20240230-00:00:00.125999", b"20240102-10:00:00.12599x",
                              b"20240102-10:00:00.1259991", b"20240102-24:00:00.125999999",
                              b"20240102-10:00:00.1259999999", b"20240102-10:00:00,125999"]
BAD["stamp"] = BAD["stamp"] + FINE
BAD["placed"] = BAD["role"]
BAD["price"] = [value for value in BAD["qty"] if not value.startswith(b"-")] + [b"-", b"-x"]
COUNTS = [b"", b"0", b"00", b"1", b"01", b"2", b"3", b"32", b"33", b"x", b"-1", b"1.",
          b"1000000000", b"1000000001", b"0000000001", b"00000000001", b"99999999999999999999"]
UNKNOWN = [b"115", b"116", b"128", b"129", b"999", b"7000", b"999999999", b"8", b"9", b"10", b"453",
           b"448", b"447", b"452", b"541", b"1138", b"528", b"789", b"1409", b"1128", b"354", b"96",
           b"355", b"364", b"3", b"511", b"512", b"513", b"640", b"2", b"41", b"21", b"40", b"79",
           b"80", b"336", b"78", b"386", b"110", b"58", b"38", b"60", b"37"]
# What the lines of parties and contra brokers have, and no report says.
PASSED_OVER = [b"523", b"655", b"802", b"803"]
# What stops the fields, and raw data in ways that do not.
STOPS = [b"=x", b"abc=1", b"055=1", b"0=1", b"1234567890=1", b"55", b"12345678901234567890", b"",
         b"5 5=x", b"-1=x", b"=", b"1234567890", b"01", b"4294967331=D", b"0000000011=x"]
DATA = [b"95=3\x0196=abc", b"95=3\x0196=a\x01c", b"95=0\x0196=", b"95=5\x0196=a\x0149=",
        b"95=4\x0196=abc", b"95=2\x0196=abc", b"95=x\x0196=abc", b"95=\x0196=abc",
        b"95=00000000003\x0196=abc", b"95=0000000003\x0196=abc", b"95=1000000001\x0196=a",
        b"95=1000000000\x0196=a", b"95=99999\x0196=a", b"95=3", b"96=abc", b"96=a\x0195=1",
        b"95=1\x0158=x\x0196=abc", b"354=8\x01355=x\x0110=070", b"355=a", b"618=1\x01619=\x01",
        b"621=2\x01622=\x01\x01", b"93=1\x0189=\x01", b"90=1\x0191=\x01", b"95=1\x0191=\x01",
        b"212=1\x01213=\x01", b"445=1\x01446=\x01", b"364=3\x01365=\x01\x01\x01",
        b"348=1\x01349=\x01", b"350=1\x01351=\x01", b"352=1\x01353=\x01", b"356=1\x01357=\x01",
        b"358=1\x01359=\x01", b"360=1\x01361=\x01", b"362=1\x01363=\x01"]
OTHERS = [b"0", b"1", b"2", b"3", b"4", b"5", b"6", b"7", b"8", b"9", b"A", b"B", b"C", b"E", b"d",
          b"j", b"AE", b"DD", b"D ", b"DF", b"\xc3\xa9", b"=", b"35=D"]


# What a trade, a correction and a bust say besides.
NEEDED = {b"F": (b"32", b"31"), b"G": (b"19", b"32", b"31"), b"H": (b"19",)}


def body_of(kind, fields):
    text = bytearray(b"35=%s\x01" % kind)
    for tag, value in fields:
        text += tag + b"\x01" if value is None else b"%s=%s\x01" % (tag, value)
    return bytes(text)


def frame(body, side=CLIENT):
    text = b"%s\x019=%d\x01" % (side.begin, len(body)) + body
    return text + b"10=%03d\x01" % (sum(text) % 256)


def value_of(draw, tag, kind, rare=0.0):
    """A good value of a field; of the kind of single bytes, one of them."""
    if rare and draw.random() < rare and kind in RARE:
        return draw.choice(RARE[kind])
    return draw.choice(USUAL[kind]) if kind in USUAL else draw.choice(kind).encode()


def group_of(draw, side, count, lines, rare=0.0):
    first, others = side.groups[count]
    fields = [(count, b"%d" % lines)]
    for _ in range(lines):
        fields.append((first, value_of(draw, first, side.members[first], rare)))
        for other, chance in others.items():
            if chance == 1 or draw.random() < chance:
                fields.append((other, value_of(draw, other, side.members[other], rare)))
    return fields


def message(draw, side, kind, number, share, grouped=0.0, rare=0.0):
    """The fields of a message in pieces that stay together: its required fields, and each other
    with a chance of this share; each group with its own."""
    pieces = [[(b"49", b"CLNT")], [(b"56", b"GATE")], [(b"34", b"%d" % number)],
              [(b"52", b"20240102-10:00:00")]]
    on_close = False
    needed = ()
    for tag, form, needs in side.rows:
        need = needs[kind]
        chance = grouped if form == "group" else share
        if need == "-" or (need == "o" and tag not in needed and draw.random() >= chance):
            continue
        if form == "group":
            pieces.append(group_of(draw, side, tag, draw.randint(1, 4), rare))
            continue
        if tag == b"205" and pieces[-1][0][0] != b"200":
            continue
        value = b"C%d" % number if tag == b"11" else value_of(draw, tag, form, rare)
        on_close = on_close or (tag == b"40" and value in (b"5", b"B"))
        if tag == b"59" and on_close:
            value = b"0"
        if tag == b"150":
            needed = NEEDED.get(value, ())
            if b"19" in needed and b"19" not in [piece[0][0] for piece in pieces]:
                pieces.append([(b"19", b"E%d" % number)])
        pieces.append([(tag, value)])
    return pieces


def flat(pieces):
    return [field for piece in pieces for field in piece]


def plain_orders(seed, size):
    """Frames of plain orders, of this many bytes together or a little more, and their number."""
    draw = random.Random(seed)
    stream, count = bytearray(), 0
    while len(stream) < size:
        count += 1
        body = f"35=D|49=CLNT|56=GATE|34={count}|52=20240102-10:00:00|11=C{count}|"
        if draw.random() < 0.5:
            body += f"109=FUND{draw.randint(1, 99)}|"
        body += f"21=1|55={draw.choice(['IBM', 'MSFT', 'ORCL', 'SAP'])}|54={draw.randint(1, 6)}|"
        body += f"60=20240102-10:00:{draw.randint(0, 59):02}|38={draw.randint(1, 99999)}|"
        body += f"40=2|44={draw.randint(1, 999)}.5|" if draw.random() < 0.7 else "40=1|"
        stream += frame(body.replace("|", "\x01").encode())
    return bytes(stream), count


def good_requests(seed, size):
    """Frames of a mix of requests, of this many bytes together or a little more, and their number:
    half of them D, a fifth each F and G, a tenth H. Two thirds of them have few fields and a third
    most; one in ten of D and G has accounts, and one in ten sessions; a third of D and G is on
    close."""
    return messages(seed, size, CLIENT, "DDDDDFFGGH", "")


def mixed_requests(seed, size):
    """The same, but one in eight has a change that is a fault in most, of any stage, and one in
    eight is a Heartbeat or of another type that is no order request."""
    return messages(seed, size, CLIENT, "DDDDDFFGGH", ["0", "0", "8", "AE"])


def good_requests_44(seed, size):
    """Frames of a mix of requests of FIX 4.4, likewise; one in ten has parties."""
    return messages(seed, size, CLIENT_44, "DDDDDFFGGH", "")


def mixed_requests_44(seed, size):
    """The same with changes and other types, as of FIX 4.2."""
    return messages(seed, size, CLIENT_44, "DDDDDFFGGH", ["0", "0", "8", "AE"])


def good_reports(seed, size):
    """Frames of a mix of reports, of this many bytes together or a little more, and their number:
    nine of ten are 8 and the others 9. Two thirds of them have few fields and a third most; one in
    ten of 8 has parties, and one in ten contra brokers."""
    return messages(seed, size, VENUE, "8888888889", "")


def mixed_reports(seed, size):
    """The same, but one in eight has a change that is a fault in most, of any stage, and one in
    eight is a Heartbeat or of another type that is no report."""
    return messages(seed, size, VENUE, "8888888889", ["0", "0", "D", "AE"])


def messages(seed, size, side, kinds, others):
    draw = random.Random(seed)
    stream, count = bytearray(), 0
    while len(stream) < size:
        count += 1
        kind = draw.choice(kinds)
        share = 0.05 if draw.random() < 0.66 else 0.8
        fields = flat(message(draw, side, kind, count, share, 0.1))
        name = kind.encode()
        chance = draw.random() if others else 1
        if chance < 0.125:
            fields = broken(draw, side, fields)
        elif chance < 0.25:
            name = draw.choice(others).encode()
        stream += frame(body_of(name, fields), side)
    return bytes(stream), count


# ---- faults

def somewhere(draw, fields):
    return draw.randint(0, len(fields))


def stopped(draw, side, fields):
    piece = draw.choice(STOPS if draw.random() < 0.3 else DATA)
    fields.insert(somewhere(draw, fields), (piece, None))


def crowded(draw, side, fields):
    """So many fields that there are 255 to 257, of tags with or without a row."""
    at = somewhere(draw, fields)
    lacking = draw.choice([255, 256, 256, 257]) - 1 - len(fields)
    fields[at:at] = [draw.choice([(b"7000", b"x"), (b"58", b"t")])] * lacking


def twice(draw, side, fields):
    tag, value = draw.choice(fields)
    if draw.random() < 0.3:
        tag = draw.choice(side.header_tags)
    fields.insert(somewhere(draw, fields), (tag, draw.choice([value, b"", b"1"])))


def miscounted(draw, side, fields):
    counts = [i for i, (tag, _) in enumerate(fields) if tag in side.groups]
    if not counts:
        added = group_of(draw, side, draw.choice(list(side.groups)),
                         draw.choice([0, 1, 2, 3, 32, 33, 34]))
        at = somewhere(draw, fields)
        fields[at:at] = added
        counts = [at]
    if draw.random() < 0.6:
        at = draw.choice(counts)
        fields[at] = (fields[at][0], draw.choice(COUNTS))


def misplaced(draw, side, fields):
    """A member of a group, or what is passed over in one, somewhere, often in or beside a group."""
    near = [i + draw.randint(0, 3) for i, (tag, _) in enumerate(fields)
            if tag in side.groups or tag in side.members]
    at = draw.choice(near) if near and draw.random() < 0.8 else somewhere(draw, fields)
    tag = draw.choice(list(side.members) + PASSED_OVER)
    fields.insert(at, (tag, draw.choice([b"", b"7", b"A", b"-1"])))


def misvalued(draw, side, fields):
    """Another value of a field: one at fault or outside the profile, or just a rare one."""
    at = draw.randrange(len(fields))
    tag, value = fields[at]
    form = side.kinds.get(tag) or side.members.get(tag)
    if form is None or form == "group":
        value = draw.choice([b"", b"Y", b"N", b"x", b"YY"])
    elif form in BAD:
        value = draw.choice(BAD[form] + RARE.get(form, []))
    else:
        value = draw.choice(side.codes)
    fields[at] = (tag, value)


def added(draw, side, fields):
    """One more field of the table, good or not, of this message or of another."""
    tag, form, _ = draw.choice(side.rows)
    good = draw.random() < 0.6 or form not in BAD
    if form == "group":
        value = draw.choice(COUNTS)
    else:
        value = value_of(draw, tag, form, 0.5) if good else draw.choice(BAD[form])
    fields.insert(somewhere(draw, fields), (tag, value))


def missing(draw, side, fields):
    del fields[draw.randrange(len(fields))]


def unknown(draw, side, fields):
    value = draw.choice([b"", b"x", b"1", b"x", b"D"])
    fields.insert(somewhere(draw, fields), (draw.choice(UNKNOWN), value))


def lacking(draw, side, fields):
    """An order on close beside some TimeInForce, or some Rule80A or OrderCapacity."""
    capacity = b"528" if side is CLIENT_44 else b"47"
    values = {b"40": draw.choice([b"5", b"B", b"2"]), b"59": draw.choice([b"0", b"3", b"6", b"7"]),
              capacity: draw.choice([b"A", b"I", b"P", b"J", b"a", b"AA"])}
    for tag in draw.sample(list(values), draw.randint(1, 3)):
        fields[:] = [field for field in fields if field[0] != tag]
        fields.insert(somewhere(draw, fields), (tag, values[tag]))


def maturing(draw, side, fields):
    """A month and its day, or a date, either of which may be none."""
    fields[:] = [field for field in fields if field[0] not in (b"200", b"205", b"541")]
    other = (b"205", "dom") if side is CLIENT else (b"541", "day")
    for tag, form in draw.sample([(b"200", "month"), other], draw.randint(1, 2)):
        value = draw.choice(BAD[form] + 3 * RARE[form])
        fields.insert(somewhere(draw, fields), (tag, value))


def swapped(draw, side, fields):
    i, j = draw.randrange(len(fields)), draw.randrange(len(fields))
    fields[i], fields[j] = fields[j], fields[i]


FAULTS = [stopped, twice, miscounted, misplaced, misvalued, misvalued, added, missing, unknown,
          lacking, maturing, swapped]


def broken(draw, side, fields):
    """The fields with one change that is a fault in most of them."""
    fields = list(fields)
    draw.choice(FAULTS)(draw, side, fields)
    return fields


def scratched(draw, body):
    """The body with a few of its bytes changed, behind its type and before its end."""
    text = bytearray(body)
    first = text.index(1) + 1
    for _ in range(draw.randint(1, 3)):
        if first < len(text) - 1:
            at = draw.randrange(first, len(text) - 1)
            byte = draw.choice(b"\x01\x01==0123459 -.:ABGIXYZab\xff")
            if draw.random() < 0.2:
                del text[at]
            elif draw.random() < 0.3:
                text.insert(at, byte)
            else:
                text[at] = byte
    return bytes(text)


def long_request(draw, side, number):
    """A good body whose translation is about as long as one may be: its content has about 7,936
    bytes, which is as many as here, or its body about 8,192, which is so many more than here as a
    ClientID or a MaxFloor takes."""
    kind = draw.choice("DG")
    fields = [field for field in flat(message(draw, side, kind, number, 0.0))
              if field[0] not in (b"21", b"40")]
    fields += [(b"21", b"1"), (b"40", b"2")]
    header = len(body_of(kind.encode(), fields[:len(HEADER)]))
    near = draw.choice([-200, -1, 0, 1, 200])
    if draw.random() < 0.5:
        fields += [(b"386", b"32")] + [(b"336", b"s" * 128)] * 32
        fields += [(b"78", b"15")] + [(b"79", b"a" * 128)] * 15
        lacking = header + 7_936 + near - len(body_of(kind.encode(), fields)) - 4
        fields.append((b"58", b"t" * lacking))
    else:
        field, more = ((b"109", b"FUND"), 18) if side is CLIENT else ((b"111", b"9"), 1)
        fields.append(field)
        lacking = 8_192 - more + min(near, more) - len(body_of(kind.encode(), fields)) - 5
        fields.insert(0, (b"122", b"x" * lacking))
    return body_of(kind.encode(), fields)


def long_report(draw, number):
    """The same of a report; each becomes one with 5 bytes more, ExecTransType."""
    ids = [(tag, b"x" * 5) for tag in (b"37", b"11", b"41", b"17", b"55")]
    fields = [(tag, b"H") for tag in HEADER] + ids
    fields += [(b"150", b"0"), (b"39", b"0"), (b"54", b"1"), (b"151", b"1"), (b"14", b"0"),
               (b"6", b"0")]
    header = len(body_of(b"8", fields[:len(HEADER)]))
    near = draw.choice([-200, -1, 0, 1, 200])
    if draw.random() < 0.5:
        fields += [(b"382", b"32")] + [(b"375", b"c" * 128), (b"337", b"d" * 30)] * 32
        lacking = header + 7_936 - 5 + near - len(body_of(b"8", fields)) - 4
        fields.append((b"58", b"t" * lacking))
    else:
        lacking = 8_192 - 5 + min(near, 5) - len(body_of(b"8", fields)) - 5
        fields.insert(0, (b"122", b"x" * lacking))
    return body_of(b"8", fields)


def any_request(draw, number, side=CLIENT, refusals=CLIENT_REFUSALS):
    """A body of any kind that a client may send: good or at fault, with up to three faults."""
    if draw.random() < 0.02:
        return long_request(draw, side, number)
    if draw.random() < 0.1:
        return any_body(draw, refusals, "3j", number)
    return any_body(draw, side, "DDDDGGGFFH", number)


def any_request_44(draw, number):
    """The same of a client of FIX 4.4."""
    return any_request(draw, number, CLIENT_44, CLIENT_44_REFUSALS)


def any_report(draw, number):
    """The same of a venue."""
    if draw.random() < 0.02:
        return long_report(draw, number)
    return any_body(draw, VENUE, "8888888993j", number)


def any_body(draw, side, kinds, number):
    while True:
        kind = draw.choice(kinds)
        share = draw.choice([0.0, 0.1, 0.3, 0.8, 1.0])
        rare = draw.choice([0.0, 0.3, 0.9])
        pieces = message(draw, side, kind, number, share, draw.choice([0.0, 0.3, 0.9]), rare)
        if draw.random() < 0.3:
            for tag in draw.sample([b"43", b"97", b"122", b"50", b"347", b"369"], 2):
                pieces.append([(tag, draw.choice([b"Y", b"N", b"x" * draw.randint(1, 300)]
                                                 if tag != b"97" else [b"Y", b"N"]))])
        if draw.random() < 0.1:
            pieces.append([(b"1128", draw.choice([b"9", b"9", b"9", b"8", b"", b"99"]))])
        if draw.random() < 0.5:
            draw.shuffle(pieces)
        fields = flat(pieces)
        for _ in range(draw.choice([0, 0, 1, 1, 1, 2, 2, 2, 3])):
            if fields:
                fields = broken(draw, side, fields)
        if draw.random() < 0.02:
            crowded(draw, side, fields)
        body = body_of(kind.encode() if draw.random() < 0.97 else draw.choice(OTHERS), fields)
        if draw.random() < 0.1:
            body = scratched(draw, body)
        if len(body) <= 8192:
            return body
