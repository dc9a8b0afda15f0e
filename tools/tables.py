"""Tables of values in plain Python, apart from the definition and the code: the bytes of a record, the rules of documents 01 and 02, the Normalized Path of a node, and the table of a value."""
import struct

NULL, FALSE, TRUE, INTEGER, FLOAT, STRING, LIST, MAP = range(8)


# ---- records: laid out here, and in no other script

LAYOUT = struct.Struct("<BBHIIIII")
RECORD = LAYOUT.size
# where the fields stand in a record
KIND, DEPTH, ZERO, KEY, KEY_SIZE, PARENT, LOW, HIGH = 0, 1, 2, 4, 8, 12, 16, 20


def record(kind, depth=0, start=0, size=0, low=0, high=0, above=0):
    """A record with its key's start and size, the two words of its payload and its parent."""
    return LAYOUT.pack(kind, depth, 0, start, size, above, low, high)


def records_of(table):
    return list(LAYOUT.iter_unpack(table))


def u32(n):
    return struct.pack("<I", n & 0xffffffff)


def field(table, node, at):
    return struct.unpack_from("<I", table, RECORD * node + at)[0]


def put(table, node, at, new):
    """The table with other bytes from a place of a node's record on."""
    at += RECORD * node
    return table[:at] + new + table[at + len(new):]


# ---- the rules of documents 01 and 02

def is_utf8(s):
    try:
        s.decode("utf-8", "strict")
        return True
    except UnicodeDecodeError:
        return False


def is_part(text, start, size):
    return start + size <= len(text) and is_utf8(text[start:start + size])


def wrong_size(table, text):
    return not table or len(table) % RECORD != 0 or len(table) // RECORD > 65535 or len(text) > 16777216


def check_records(table, text):
    """None if the records are right, 9, or (10, node)."""
    if wrong_size(table, text):
        return 9
    nodes = records_of(table)
    parent, begin = {}, 1
    for i, (kind, depth, zero, start, size, above, low, high) in enumerate(nodes):
        if kind > 7 or depth > 63 or zero:
            return 10, i
        if kind in (NULL, FALSE, TRUE) and (low or high):
            return 10, i
        if kind == FLOAT and high >> 20 & 2047 == 2047:
            return 10, i
        if kind in (LIST, MAP):
            if high == 0 and low != 0:
                return 10, i
            if high != 0 and (low != begin or low + high > len(nodes)):
                return 10, i
            if kind == MAP and high > 1024:
                return 10, i
        if i == 0:
            if above or depth or start or size:
                return 10, i
        else:
            if i not in parent:
                return 10, i
            up = parent[i]
            if above != up or depth != nodes[up][1] + 1:
                return 10, i
            if nodes[up][0] != MAP and (start or size):
                return 10, i
        if kind in (LIST, MAP):
            for child in range(begin, begin + high):
                parent[child] = i
            begin += high
    return None


def check_texts(table, text):
    """None if the texts and keys are right, whatever else the records hold, 9, or (17, node)."""
    if wrong_size(table, text):
        return 9
    nodes = records_of(table)
    ranges = [(low, low + high) for kind, *_, low, high in nodes if kind == MAP]
    last = {}
    for i, (kind, _, _, start, size, _, low, high) in enumerate(nodes):
        if kind == STRING and not is_part(text, low, high):
            return 17, i
        key = text[start:start + size]
        begins = [begin for begin, end in ranges if begin <= i < end]
        if begins and (not is_part(text, start, size) or last.get(key, -1) >= min(begins)):
            return 17, i
        last[key] = i
    return None


def check(table, text):
    """The pair: None if the table is accepted, 9, (10, node) or (17, node)."""
    return check_records(table, text) or check_texts(table, text)


def parents(table):
    """The parents of the nodes of an accepted table."""
    out, begin = {}, 1
    for i, (kind, *_, high) in enumerate(records_of(table)):
        if kind in (LIST, MAP):
            for child in range(begin, begin + high):
                out[child] = i
            begin += high
    return out


def named(table, text, node, key):
    """(0, part) or (refusal, empty)."""
    wrong = check(table, text)
    if wrong is not None:
        return (wrong if wrong == 9 else wrong[0]), b""
    if node >= len(table) // RECORD:
        return 15, b""
    if key:
        up = parents(table).get(node)
        if up is None or table[RECORD * up + KIND] != MAP:
            return 15, b""
        start, size = field(table, node, KEY), field(table, node, KEY_SIZE)
    else:
        if table[RECORD * node + KIND] != STRING:
            return 15, b""
        start, size = field(table, node, LOW), field(table, node, HIGH)
    return 0, text[start:start + size]


# ---- Normalized Paths: RFC 9535, section 2.7

ESCAPES = {8: b"\\b", 9: b"\\t", 10: b"\\n", 12: b"\\f", 13: b"\\r", 39: b"\\'", 92: b"\\\\"}


def escaped(key):
    return b"".join(ESCAPES.get(b) or (bytes([b]) if b >= 32 else b"\\u%04x" % b) for b in key)


def steps(table, text, node):
    """The path of a node of an accepted table, by ranges of children."""
    up, path = parents(table), b""
    while node in up:
        above = up[node]
        if table[RECORD * above + KIND] == MAP:
            start, size = field(table, node, KEY), field(table, node, KEY_SIZE)
            step = b"['%s']" % escaped(text[start:start + size])
        else:
            step = b"[%d]" % (node - min(child for child in up if up[child] == above))
        path, node = step + path, above
    return b"$" + path


def path(table, text, node, room):
    """(refusal, number, what is written): the number is the length needed with 0 and 16, and the node with 10 and 17."""
    wrong = check(table, text)
    if wrong is not None:
        return (9, 0, b"") if wrong == 9 else (*wrong, b"")
    if node >= len(table) // RECORD:
        return 15, 0, b""
    s = steps(table, text, node)
    return (16, len(s), b"") if room < len(s) else (0, len(s), s)


# ---- tables made from values

def build(value):
    """The table and the text of a Python value. Dicts are maps; texts and keys are bytes, or strings that are encoded in UTF-8."""
    records, text, queue, begin = [], b"", [(value, 0, 0, 0, 0)], 1
    while queue:
        v, depth, start, size, above = queue.pop(0)
        v = v.encode() if isinstance(v, str) else v
        low = high = 0
        if v is None or v is False or v is True:
            kind = {None: NULL, False: FALSE, True: TRUE}[v]
        elif isinstance(v, int):
            kind = INTEGER
            low, high = struct.unpack("<II", struct.pack("<q", v))
        elif isinstance(v, float):
            kind = FLOAT
            low, high = struct.unpack("<II", struct.pack("<d", v))
        elif isinstance(v, bytes):
            kind, low, high = STRING, len(text), len(v)
            text += v
        else:
            kind = MAP if isinstance(v, dict) else LIST
            high = len(v)
            low = begin if high else 0
            begin += high
            for item in v.items() if kind == MAP else ((b"", x) for x in v):
                key = item[0].encode() if isinstance(item[0], str) else item[0]
                at = len(text) if kind == MAP else 0
                text += key
                queue.append((item[1], depth + 1, at, len(key), len(records)))
        records.append(record(kind, depth, start, size, low, high, above))
    return b"".join(records), text
