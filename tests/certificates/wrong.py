"""Wrong checkers: for each the rule that it breaks, and a part of a line of checker.py with what stands there
instead. Each has to err on some pair of pairs.py."""

import pathlib
import types

SOURCE = (pathlib.Path(__file__).resolve().parent / "checker.py").read_text()

MARK = r'3 if data.startswith(b"\xef\xbb\xbf") else 0'
CHILDREN, EACH_CHILD = "for child, way in zip(node[4], below))", "for child, way in list(zip(node[4], below))[%s])"
IDLE_WAYS, LEAST = "(CAP, i, min(cap[i], b - 1)) for i in idles]", "sum(min(lo[c] * gain, hi[c] * gain)"
EARLY_WAYS = """if early and hi[c] >= 1:
            ways.append((LO, c, max(lo[c], 1)))"""
APART = "if end == CLOSED_END and length == 1"
VERSIONS = 'data[:4] in (b"PCB1", b"PCB2", b"PCB4")'
SECOND_END = "number(1, OPEN_END, CLOSED_END)"
FOURTH_END = 'IDLE_END if data[:4] == b"PCB4"'
MAY_CLOSE = "if tag == CLOSE and end in (CLOSED_END, IDLE_END) and b >= 1:"
LAST_IDLE = "last = [(CAP, 15, min(cap[15], b - 1))]"
LAST_PAGE = "if end == CLOSED_END and count[135] >= 1 and lo[135] < count[135]:"
LAST_PAGE_WAY = f"{LAST_PAGE}\n        last.append((HI, 135, min(hi[135], count[135] - 1)))"
LATE_WAYS = """if late and lo[c] < count[c]:
            ways.append((HI, c, min(hi[c], count[c] - 1)))"""

OF_FILES = [
    ("a byte order mark is a part of the first field", MARK, "0"),
    ("EF BB and any byte are a byte order mark", MARK, r'3 if data.startswith(b"\xef\xbb") else 0'),
    ("EF BB alone is a byte order mark", MARK, MARK.replace("0", r'2 if data.startswith(b"\xef\xbb") else 0')),
    ("an empty line is a record", r'if not fields and data[at:at + 1] in (b"\n", b"\r"):', "if False:"),
    ("an empty line of a carriage return is a record", r'data[at:at + 1] in (b"\n", b"\r")', r'data[at:at + 1] == b"\n"'),
    ("a carriage return alone ends no record", r'rb"([^,\r\n]*)(,|\r\n|\r|\n|\Z)"', r'rb"([^,\r\n]*)(,|\r\n|\n|\Z)"'),
    ("a line feed alone ends no record", r'rb"([^,\r\n]*)(,|\r\n|\r|\n|\Z)"', r'rb"([^,\r\n]*)(,|\r\n|\r|\Z)"'),
    ("spaces around a field are left out", "fields.append(field)", 'fields.append(field.strip(b" "))'),
    ("a doubled quote stands for two", """.replace(b'""', b'"')""", ""),
    ("a doubled quote closes", """data[at + 1:at + 2] != b'"'""", "True"),
    ("what follows the closing quote is left out", "quoted + rest[1]", "(quoted if quoted else rest[1])"),
    ("a quote never closed is refused", "else len(data)\n", "else need(False)\n"),
    ("a quote begins in the midst of a field", """if data[at:at + 1] == b'"':""", """if b'"' in UNQUOTED.match(data, at)[1]:"""),
    ("the header may be any three fields", 'need(next(rows, None) == [b"address", b"kind", b"message"])', "need(len(next(rows, [])) == 3)"),
    ("the header's case is any", "need(next(rows, None) ==", "need([x.lower() for x in next(rows, [])] =="),
    ("a fourth field is passed over", "need(len(fields) == 3 and", "need(len(fields) >= 3 and"),
    ("the header may have more fields", 'need(next(rows, None) == [', 'need(next(rows, [])[:3] == ['),
    ("a message may be left out", "need(len(fields) == 3 and", "fields += [b''] * (3 - len(fields)); need("),
    ("an address may be any number of Python's", 're.fullmatch(rb"[0-9]{1,7}", fields[0])', "fields[0].strip().isdigit()"),
    ("an address may come twice", "address not in lengths and", ""),
    ("an address may come again, but not at once", "need(address not in lengths and", "need(address != next(reversed(lengths), None) and"),
    ("a round may be empty", "need(lengths)", "pass"),
    ("a numeric message may be empty", r"\]\[]{1,4000}", r"\]\[]{0,4000}"),
    ("a numeric message may hold u", "0-9*U", "0-9*Uu"),
    ("space to ] is a range", r"[0-9*U \-\]\[]", r"[0-9*U -\]\[]"),
    ("a numeric message holds no [", r"\]\[]{1,4000}", r"\]]{1,4000}"),
    ("an alphanumeric message may be empty", r"\x7f]{1,4000}", r"\x7f]{0,4000}"),
    ("an alphanumeric message may hold 0", r"[\x01-\x7f]", r"[\x00-\x7f]"),
    ("an alphanumeric message may hold 128", r"[\x01-\x7f]", r"[\x01-\x80]"),
    ("an alphanumeric message holds no control characters", r"[\x01-\x7f]", r"[\x20-\x7f]"),
    ("a tone may have a message", 'b"tone2": (b"", 0)', 'b"tone2": (b".*", 0)'),
    ("a kind is missing", 'b"tone3": (b"", 0)', 'b"tone4": (b"", 0)'),
    ("a character of alpha has eight bits", "{1,4000}\", 7)", "{1,4000}\", 8)"),
    ("a numeric character has five bits", "{1,4000}\", 4)", "{1,4000}\", 5)"),
    ("a part of a codeword is none", "len(message) + 19) // 20", "len(message)) // 20"),
    ("the address codeword is not counted", "return address, 1 +", "return address, 0 +"),
    ("the frame is taken from the high bits", "(address % 8, length)", "(address // 8 % 8, length)"),
    ("length 1 is apart with the open end too", APART, "if end != IDLE_END and length == 1"),
    ("length 1 is not apart with the closed end", APART, "if False"),
    ("length 1 is apart with the idle end too", APART, "if end != OPEN_END and length == 1"),
    ("lengths 1 modulo 16 are apart with the closed end", APART, "if end == CLOSED_END and length % 16 == 1"),
    ("whole turns are rounded up", "+= length // 16", "+= (length + 15) // 16"),
    ("whole turns are not counted", "turns[c] += length // 16", "turns[c] += 0"),
    ("whole turns are those of one page", "turns[c] += length // 16", "turns[c] = length // 16"),
]

# Each limit, by a part of a line with its number: one more is wrong, and so is one less.
LIMITS = [
    ("digits of an address", "[0-9]{1,%d}", 7),
    ("the greatest address", "address <= %d", 2097151),
    ("the first address that is reserved", "%d <=", 2007664),
    ("the last of these", "<= %d", 2007671),
    ("the first of the others that are reserved", "%d <=", 2045056),
    ("the last of those", "<= %d", 2045063),
    ("pages", "len(lengths) < %d", 20000),
    ("bytes of a numeric message", r"\]\[]{1,%d}", 4000),
    ("bytes of an alphanumeric message", r"\x7f]{1,%d}", 4000),
    ("depth", "len(wanted) <= %d", 300),
    ("nodes", "nodes <= %d", 1000000),
    ("the last class of the first version", "(OPEN, %d,", 127),
    ("the last class of the second version", "(CLOSE, %d,", 135),
    ("m in the first version", "127, %d,", 2000),
    ("m in the second version", "135, %d,", 20000),
    ("children in the first version", "2000, %d)", 272),
    ("children in the second version", "20000, %d)", 288),
]
OF_LIMITS = [
    (f"{name}: {number + by} for {number}", part % number, part % (number + by)) for name, part, number in LIMITS for by in (1, -1)
]

OF_RUNS = [
    ("the rest of a class from 128 on is 0", "(c - 128, 1)", "(c - 128, 0)"),
    ("the frame of a class from 128 on is 0", "(c - 128, 1)", "(0, 1)"),
    ("a late run starts with its frame", "start = 2 * frame + late", "start = 2 * frame"),
    ("an early run starts late", "start = 2 * frame + late", "start = 2 * frame + 1"),
    ("a run ends one slot before", "1 << (start + rest) % 16, sum", "1 << (start + rest - 1) % 16, sum"),
    ("a run covers a slot more", "for i in range(rest))", "for i in range(rest + 1))"),
    ("a run of rest 0 covers all slots", "for i in range(rest))", "for i in range(rest or 16))"),
    ("an idle in 15 leads nowhere", "1 << i | 1 << (i + 1) % 16", "1 << i | 1 << min(i + 1, 15)"),
    ("an arc crosses where both ends are out", "not in (0, ends)", "!= ends"),
    ("an arc crosses where both ends are in", "not in (0, ends)", "!= 0"),
    ("a run touches the outside where both ends do", "return members & ends != ends", "return members & ends == 0"),
]

OF_BYTES = [
    ("the first version has a byte for the end", "end = OPEN_END if first else", "end ="),
    ("any version", VERSIONS, 'data[:3] == b"PCB"'),
    ("a third version", VERSIONS, 'data[:4] in (b"PCB1", b"PCB2", b"PCB3", b"PCB4")'),
    ("the first version is not read", VERSIONS, 'data[:4] in (b"PCB2", b"PCB4")'),
    ("the fourth version is not read", VERSIONS, 'data[:4] in (b"PCB1", b"PCB2")'),
    ("the second version names the idle end too", SECOND_END, "number(1, OPEN_END, IDLE_END)"),
    ("the first version means the closed end", "end = OPEN_END if first", "end = CLOSED_END if first"),
    ("the fourth version means the open end", FOURTH_END, 'OPEN_END if data[:4] == b"PCB4"'),
    ("the fourth version means the closed end", FOURTH_END, 'CLOSED_END if data[:4] == b"PCB4"'),
    ("the fourth version has a byte for the end", FOURTH_END, 'number(1, IDLE_END, IDLE_END) if data[:4] == b"PCB4"'),
    ("the fourth version passes a byte over", FOURTH_END, 'number(1, 0, 255) if data[:4] == b"PCB4"'),
    ("the low byte first", '"big")', '"little")'),
    ("B may be 0", "batches = number(4, 1,", "batches = number(4, 0,"),
    ("B has two bytes", "batches = number(4, 1,", "batches = number(2, 0,"),
    ("the high byte of B is passed over", 'batches = number(4, 1, 2 ** 32 - 1)', 'batches = number(4, 1, 2 ** 32 - 1) % 2 ** 24'),
    ("the high half of B is passed over", 'batches = number(4, 1, 2 ** 32 - 1)', 'batches = number(4, 1, 2 ** 32 - 1) % 2 ** 16'),
    ("the first version has a Close", "(OPEN, 127, 2000, 272)", "(CLOSE, 127, 2000, 272)"),
    ("the second version has no Close", "(CLOSE, 135, 20000, 288)", "(OPEN, 135, 20000, 288)"),
    ("m of 0", "m = number(2, 1, last_m)", "m = number(2, 0, last_m)"),
    ("a Cut with one child", "number(2, 2, most)", "number(2, 1, most)"),
    ("a Close with no child", "number(1, 1, 2) if tag == CLOSE", "number(1, 0, 2) if tag == CLOSE"),
    ("a Close with three children", "number(1, 1, 2) if tag == CLOSE", "number(1, 1, 3) if tag == CLOSE"),
    ("an empty set", "number(2, 1, 65535) if tag in", "number(2, 0, 65535) if tag in"),
    ("bytes behind the root", "need(at == len(data))", "need(at <= len(data))"),
]

OF_VERDICTS = [
    ("a number of batches is refuted, and not one less", "b, count, turns = batches - 1,", "b, count, turns = batches,"),
    ("two batches less are refuted", "b, count, turns = batches - 1,", "b, count, turns = max(0, batches - 2),"),
    ("an overload may be even", "> room else None", ">= room else None"),
    ("an overload is by two", "> room else None", "> room + 1 else None"),
    ("the room is that of all slots", "sum(cap[i] for i in range(16) if members >> i & 1)", "sum(cap)"),
    ("the room is b for each slot", "sum(cap[i] for i in range(16) if members >> i & 1)", "b * size(members)"),
    ("the least load is that of the greatest caps", "least_load(members, lo, hi, count, turns) > room",
     "least_load(members, lo, hi, count, turns) > max(room, b * size(members))"),
    ("of lo and hi the greater load", LEAST, "sum(max(lo[c] * gain, hi[c] * gain)"),
    ("the load with lo", LEAST, "sum((lo[c] * gain)"),
    ("the load with hi", LEAST, "sum((hi[c] * gain)"),
    ("the least of all classes together", "sum(min(lo[c] * gain, hi[c] * gain) for c, gain in gains)",
     "min(sum(lo[c] * gain for c, gain in gains), sum(hi[c] * gain for c, gain in gains))"),
    ("late runs cover as early ones do", "count[c] * late\n", "count[c] * early\n"),
    ("whole turns load a set once", "turns[c] * size(members)", "turns[c]"),
    ("early runs add what they cover", "(c, early - late)", "(c, early)"),
    ("a Split at lo", "lo[c] < m <= hi[c]", "lo[c] <= m <= hi[c]"),
    ("a Split above hi", "lo[c] < m <= hi[c]", "lo[c] < m <= hi[c] + 1"),
    ("no Split at hi", "lo[c] < m <= hi[c]", "lo[c] < m < hi[c]"),
    ("a Split anywhere", "and lo[c] < m <= hi[c]:", ":"),
    ("below a Split hi is m", "(HI, c, m - 1), (LO, c, m)", "(HI, c, m), (LO, c, m)"),
    ("from a Split on lo is m - 1", "(HI, c, m - 1), (LO, c, m)", "(HI, c, m - 1), (LO, c, m - 1)"),
    ("the children of a Split exchanged", "[(HI, c, m - 1), (LO, c, m)]", "[(LO, c, m), (HI, c, m - 1)]"),
    ("a Split's first child is not judged", CHILDREN, EACH_CHILD % "node[0] == SPLIT:"),
    ("a Split's second child is not judged", CHILDREN, EACH_CHILD % ":1 if node[0] == SPLIT else None"),
    ("a Cut's last child is not judged", CHILDREN, EACH_CHILD % ":-1 if node[0] == CUT else None"),
    ("a Cut's first child is not judged", CHILDREN, EACH_CHILD % "node[0] == CUT:"),
    ("a Close's last child is not judged", CHILDREN, EACH_CHILD % ":-1 if node[0] == CLOSE and len(below) > 1 else None"),
    ("an Open below a Cut is taken", "if below is None or",
     "if node[0] == OPEN and change and change[0] == CAP: continue\n        if below is None or"),
    ("a Cut with b of 0", "if tag == CUT and b >= 1 and", "if tag == CUT and"),
    ("a Cut's set without boundary 0", "and members & 1 and c <= 135", "and c <= 135"),
    ("a Cut's class need not be certain", "and certain(c, members, lo, hi, count):", "and count[c] >= 1:"),
    ("a class without pages is certain", "count[c] >= 1 and (early and late", "(early and late"),
    ("one run outside makes a class certain", "early and late or", "early or late or"),
    ("both runs outside make no class certain", "early and late or", ""),
    ("an early run outside makes a class certain", "early and lo[c] >= 1", "early"),
    ("no early run makes a class certain", " or early and lo[c] >= 1", ""),
    ("a late run outside makes a class certain", "late and hi[c] < count[c])", "late)"),
    ("no late run makes a class certain", " or late and hi[c] < count[c])", ")"),
    ("some pages early make late ones certain", "late and hi[c] < count[c])", "late and lo[c] < count[c])"),
    ("more children than ways", "len(below) != len(node[4])", "len(below) > len(node[4])"),
    ("fewer children than ways", "len(below) != len(node[4])", "len(below) < len(node[4])"),
    ("an idle where the cap is below b is no way", IDLE_WAYS, "(CAP, i, min(cap[i], b - 1)) for i in idles if cap[i] == b]"),
    ("an idle lowers the cap each time", IDLE_WAYS, "(CAP, i, cap[i] - 1) for i in idles]"),
    ("an idle narrows nothing", IDLE_WAYS, "(CAP, i, cap[i]) for i in idles]"),
    ("idles come after runs", "return ways\n", "return ways[len(idles):] + ways[:len(idles)]\n"),
    ("idles from 15 down to 0", "for i in range(16) if crosses(members, IDLES[i])",
     "for i in reversed(range(16)) if crosses(members, IDLES[i])"),
    ("classes from 135 down to 0", "for c, early, late in runs:", "for c, early, late in reversed(runs):"),
    ("early where lo is not 0", "if early and hi[c] >= 1:", "if early and lo[c] >= 1:"),
    ("early where hi is 0 too", "if early and hi[c] >= 1:", "if early:"),
    ("late where hi is below the count", "if late and lo[c] < count[c]:", "if late and hi[c] < count[c]:"),
    ("late where lo is the count too", "if late and lo[c] < count[c]:", "if late:"),
    ("late before early", f"{EARLY_WAYS}\n        {LATE_WAYS}", f"{LATE_WAYS}\n        {EARLY_WAYS}"),
    ("early narrows to one page more", "(LO, c, max(lo[c], 1))", "(LO, c, lo[c] + 1)"),
    ("early narrows to one", "(LO, c, max(lo[c], 1))", "(LO, c, 1)"),
    ("early narrows nothing", "(LO, c, max(lo[c], 1))", "(LO, c, lo[c])"),
    ("late narrows to one page less", "(HI, c, min(hi[c], count[c] - 1))", "(HI, c, hi[c] - 1)"),
    ("late narrows to all but one", "(HI, c, min(hi[c], count[c] - 1))", "(HI, c, count[c] - 1)"),
    ("late narrows nothing", "(HI, c, min(hi[c], count[c] - 1))", "(HI, c, hi[c])"),
    ("a Close with the open end", MAY_CLOSE, "if tag == CLOSE and b >= 1:"),
    ("no Close with the closed end", MAY_CLOSE, "if tag == CLOSE and end == IDLE_END and b >= 1:"),
    ("no Close with the idle end", MAY_CLOSE, "if tag == CLOSE and end == CLOSED_END and b >= 1:"),
    ("a Close with b of 0", MAY_CLOSE, "if tag == CLOSE and end in (CLOSED_END, IDLE_END):"),
    ("the last idle in slot 0", LAST_IDLE, "last = [(CAP, 0, min(cap[0], b - 1))]"),
    ("the last idle lowers the cap each time", LAST_IDLE, "last = [(CAP, 15, cap[15] - 1)]"),
    ("the last idle narrows nothing", LAST_IDLE, "last = [(CAP, 15, cap[15])]"),
    ("a last idle alone", LAST_PAGE, "if False:"),
    ("the last page before the last idle", "last.append((HI, 135,", "last.insert(0, (HI, 135,"),
    ("the last page is of frame 0", LAST_PAGE_WAY,
     "if end == CLOSED_END and count[128] >= 1 and lo[128] < count[128]:\n        last.append((HI, 128, min(hi[128], count[128] - 1)))"),
    (
        "a last page with the idle end",
        LAST_PAGE_WAY,
        "c = 113 if end == IDLE_END else 135\n"
        "    if count[c] >= 1 and lo[c] < count[c]:\n"
        "        last.append((HI, c, min(hi[c], count[c] - 1)))",
    ),
    ("the last page where all start early too", LAST_PAGE, "if end == CLOSED_END and count[135] >= 1:"),
    ("a last page where there is none", LAST_PAGE, "if end == CLOSED_END:"),
    ("the last page narrows to one less", "min(hi[135], count[135] - 1)", "hi[135] - 1"),
    ("the last page narrows nothing", "min(hi[135], count[135] - 1)", "hi[135]"),
    ("no way narrows", "limits = changed(limits, change) if change else limits", "pass"),
    ("the last way alone narrows", "waiting.extend((child, limits, way)", "waiting.extend((child, ((0,) * 136, count, (b,) * 16), way)"),
    ("the closed end is not told", '" with a closed end"', '""'),
    ("the idle end is not told", '" with an idle last"', '""'),
    ("the idle end is told as the closed one", '" with an idle last"', '" with a closed end"'),
    ("a page file is judged after the certificate", 'return "refused"',
     'return "refused" if parse(bytes(certificate_bytes)) else "no certificate"'),
]

WRONG = OF_FILES + OF_LIMITS + OF_RUNS + OF_BYTES + OF_VERDICTS


def checker_with(old, new):
    """The second checker with this part of a line changed; the part stands there once."""
    if SOURCE.count(old) != 1:
        raise ValueError(f"stands {SOURCE.count(old)} times in checker.py: {old}")
    module = types.ModuleType("wrong")
    exec(compile(SOURCE.replace(old, new), "wrong", "exec"), module.__dict__)
    return module


def answer_of(module, pages, certificate):
    """The answer of a checker, or the name of the error that ended it."""
    try:
        return module.verdict(pages, certificate)
    except Exception as error:
        return type(error).__name__


def errs(old, new, judged):
    """Whether the wrong checker gives another answer on some pair. These come with the right one, as (page file, certificate, answer)."""
    module = checker_with(old, new)
    return any(answer_of(module, pages, certificate) != answer for pages, certificate, answer in judged)
