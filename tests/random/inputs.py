"""Random inputs for `tests/random/random`: text files, patterns, devices, positions, and databases of every kind.

They are small and dense in the awkward cases. All is made from a `random.Random`, so that a seed says which.
"""
import random
import struct

import reference

# Text files.

LITERALS = [b"a", b"b", b"c", b"a", b"b", b"A", b"5", b"-", b"]", b":", b"!", b"^", b"\\", b".", b"/", b"z", b" ", b"\t"]
LITERALS += [b"\xc3\xa9", b"\xc3", b"\xff", b"\x01", b"\x7f", b"\r", b"="]
ITEMS = [b"a", b"b", b"a-c", b"c-a", b"a-", b"-", b"-a", b"--0", b"]", b"]-a", b"!", b"!-a", b"^", b"*", b"?", b"[", b"[-a"]
ITEMS += [b"[:digit:]", b"[:alpha:]", b"[:upper:]", b"[:space:]", b"[:cntrl:]", b"[:punct:]", b"[:xdigit:]", b"[:alnum:]"]
ITEMS += [b"[:blank:]", b"[:graph:]", b"[:lower:]", b"[:print:]", b"[:digi:]", b"[:", b":]", b"[:digit:", b"[:digit:]-z"]
ITEMS += [b"a-[:digit:]", b"[.a.]", b"[=a=]", b"\x80-\xff", b"\xc3", b"\\", b"\\]", b"0-9", b"5"]
TAILS = [b"", b"", b"", b"", b"", b" ", b"\t", b"\r", b" \r", b"#", b" # note", b"#=", b"\v\f", b"  \t "]
KEYS = [b"K", b"K", b"L", b"KK", b"K ", b"K\t", b".K", b"\xc3\xa9", b"[K]", b"a:b", b"\x01", b"-"]
VALUES = [b"", b"", b"1", b"2", b" v", b"a=b", b"=", b"\xff\xfe", b"\t1", b"v w", b"K", b"1\r1"]
NAMES = [b"10-a.hwdb", b"20-b.hwdb", b"9.hwdb", b"A.hwdb", b"a b.hwdb", b"\xc3\xa9.hwdb", b"a.hwdb.hwdb", b"-x.hwdb"]
NAMES += [b"a.hwdb", b"a-b.hwdb", b"b.hwdb", b"=:.hwdb"]
OTHER_NAMES = [b".a.hwdb", b"a.txt", b".hwdb", b"hwdb", b"a.hwdb~", b"a.HWDB", b"xhwdb", b"a.hwdb "]


def some(rng, pool, least, most):
    return [rng.choice(pool) for _ in range(rng.randint(least, most))]


def bracket(rng):
    """A bracket, or nearly one."""
    text = b"[" + rng.choice([b"", b"", b"!", b"^", b"!!", b"]", b"!]", b"^]"])
    text += b"".join(some(rng, ITEMS, 0, 3))
    return text + (b"]" if rng.random() < 0.85 else b"")


def pattern(rng):
    text = b""
    for _ in range(rng.choice([1, 1, 2, 2, 3, 4, 6])):
        kind = rng.random()
        if kind < 0.45:
            text += rng.choice(LITERALS)
        elif kind < 0.62:
            text += rng.choice([b"*", b"*", b"**", b"***"])
        elif kind < 0.70:
            text += b"?"
        else:
            text += bracket(rng)
    return text


def patterns(rng):
    """A pool of patterns, some of them beginnings or continuations of others."""
    pool = [pattern(rng) for _ in range(rng.randint(1, 6))]
    for _ in range(rng.randint(0, 6)):
        text = rng.choice(pool)
        if rng.random() < 0.5:
            text = text[: rng.randint(1, len(text))]
        else:
            text += pattern(rng)
        pool.append(text)
    return pool


def match_line(rng, pool):
    return (rng.choice(pool) if rng.random() < 0.9 else pattern(rng)) + rng.choice(TAILS)


def property_line(rng):
    indent = rng.choice([b" ", b" ", b" ", b"  ", b" \t", b" \t "])
    kind = rng.random()
    if kind < 0.04:
        return indent + rng.choice(KEYS) + rng.choice(TAILS)
    if kind < 0.08:
        return indent + b"=" + rng.choice(VALUES) + rng.choice(TAILS)
    return indent + rng.choice(KEYS) + b"=" + rng.choice(VALUES) + rng.choice(TAILS)


def odd_line(rng, pool):
    kind = rng.random()
    if kind < 0.25:
        return rng.choice([b"", b" ", b"\t", b"\r", b" # note", b"\v", b"  \t"])
    if kind < 0.5:
        return b"#" + rng.choice([b"", b" note", b"\0", b" K=1"])
    if kind < 0.7:
        line = rng.choice([match_line(rng, pool), property_line(rng)])
        at = rng.randint(0, len(line))
        return line[:at] + b"\0" + line[at:]
    if kind < 0.78:
        return b"a" * rng.randint(4094, 4098) + rng.choice([b"", b"*", b" ", b"#", b"\r", b" \t"])
    if kind < 0.85:
        return b" K=" + b"v" * rng.choice([255, 300, 4095, 4096, 4097])
    return match_line(rng, pool) if kind < 0.92 else property_line(rng)


def soup_line(rng, pool):
    """A line of any kind."""
    return rng.choice([match_line(rng, pool), odd_line(rng, pool), property_line(rng), property_line(rng)])


def record(rng, pool):
    lines = [match_line(rng, pool) for _ in range(rng.choice([1, 1, 1, 2, 3]))]
    lines += [property_line(rng) for _ in range(rng.choice([0, 1, 1, 2, 3]))]
    for _ in range(rng.choice([0, 0, 0, 1, 2])):
        lines.insert(rng.randint(0, len(lines)), odd_line(rng, pool))
    return lines


def text_file(rng, pool):
    """The bytes of a text file over a pool of patterns."""
    lines = []
    for _ in range(rng.choice([0, 1, 1, 2, 3, 5])):
        lines += record(rng, pool)
        lines += rng.choice([[b""], [b""], [b"", b""], [b"\r"], []])
    if rng.random() < 0.1:
        lines = [soup_line(rng, pool) for _ in range(8)]
    text = rng.choice([b"", b"", b"", b"", b"\xef\xbb\xbf"]) + b"\n".join(lines)
    return text + rng.choice([b"\n", b"\n", b"", b"\n\n", b" ", b"\0"])


# A link to /dev/null reads as an empty file; a folder is only made where it isn't read.
LINK = "a link to /dev/null"
FOLDER = "a folder"


def folder(rng, pool, masked):
    """A folder of text files, as a dictionary; None where it isn't there. `masked` are the names that aren't read in it."""
    if rng.random() < 0.1:
        return None
    files = {}
    for name in rng.sample(NAMES, rng.choice([0, 1, 1, 2, 3])) + rng.sample(OTHER_NAMES, rng.choice([0, 0, 1, 2])):
        kind = rng.random()
        if kind < 0.06:
            files[name] = LINK
        elif kind < 0.3 and (name in masked or not reference.counts(name)):
            files[name] = FOLDER
        else:
            files[name] = text_file(rng, pool)
    return files


def two_folders(rng, pool):
    etc = folder(rng, pool, ())
    return etc, folder(rng, pool, etc or ())


# Devices.

DEVICE_PIECES = ["a", "b", "c", "a", "b", "A", "5", "-", "]", "[", ":", "!", "^", "\\", ".", "/", "*", "?", " ", "\t", "\r"]
DEVICE_PIECES += ["\u00e9", "\x01", "\x7f", "z", "=", "#", "\n", "d", "g", "\u20ac", "\U0001f600"]


def device(rng, pool):
    """A device string: often one that a pattern of the pool matches. The command line carries UTF-8 without byte 0."""
    kind = rng.random()
    if kind < 0.05:
        return b""
    if kind < 0.85 and pool:
        for _ in range(6):
            text = rng.choice(pool)
            text = as_it_stands(rng, text) if rng.random() < 0.25 else fitting(rng, text)
            if is_word(text):
                return text
    return "".join(some(rng, DEVICE_PIECES, 1, 5)).encode()


def as_it_stands(rng, text):
    """A pattern's own bytes, of which those that are no wildcards match themselves."""
    return text.replace(b"*", rng.choice([b"", b"*", b"a"])).replace(b"?", rng.choice([b"?", b"b"]))


def fitting(rng, text):
    """A device that the pattern matches, or nearly."""
    device = b""
    for token in reference.tokens(text):
        if token == reference.STAR:
            device += "".join(some(rng, DEVICE_PIECES, 0, 2)).encode()
        elif token:
            usual = [byte for byte in sorted(token) if 32 < byte < 127]
            device += bytes([rng.choice(usual or sorted(token))])
    if rng.random() < 0.15 and device:
        at = rng.randrange(len(device))
        device = device[:at] + device[at + rng.randint(0, 1) + 1 :]
    return device


def is_word(text):
    try:
        return "\0" not in text.decode()
    except UnicodeDecodeError:
        return False


# Positions.

BAD_POSITIONS = [b"", b":::", b"1:2", b"01:2::", b"+1:2::", b"-1:2::", b"65536:1::", b"1:4294967296::", b"1:2:6:"]
BAD_POSITIONS += [b"1:2:zz:", b"1:2:::", b" 1:2::", b"1:2:: ", b"1:2::\xc3\xa9", b"\xd9\xa3:1::", b"1:-2::", b"0x1:2::"]
BAD_POSITIONS += [b"1:::", b"00:0::", b"1:02::", b"99999999999999999999999:1::", b"1:99999999999999999999999::"]
BAD_POSITIONS += [b"1:2:61:4b4", b"1:2:6:1", b"1;2::"]
GOOD_POSITIONS = [b"0:0::", b"1:0::", b"65535:4294967295:ff:FF", b"1:2::", b"2:0::", b"1:4294967295::", b"1:3:5B:4B"]


def position(rng, assignments):
    """The text of a position: one of these assignments', one near it, an invented one, or none at all."""
    kind = rng.random()
    if kind < 0.08:
        return rng.choice(BAD_POSITIONS)
    if kind < 0.16 or not assignments:
        return rng.choice(GOOD_POSITIONS)
    priority, line, text, key = reference.position_of(rng.choice(assignments))
    if kind < 0.5:
        return reference.position_text((priority, line, text, key))
    if kind < 0.6:
        return reference.position_text((priority, line, text, key)).replace(b"a", b"A").replace(b"b", b"B")
    if kind < 0.7:
        text = reference.position_text((priority, line, text, key))
        at = rng.randrange(len(text))
        return text[:at] + rng.choice([b"", b"0", b":", b"f", b"g", b"A"]) + text[at + rng.randint(0, 1) :]
    line = max(0, line + rng.choice([-1, 0, 0, 1]))
    text = rng.choice([text, text[:-1], text + b"\0", text + b"z", b""])
    key = rng.choice([key, key[:-1], key + b"\0", b"", b"\xff"])
    return reference.position_text((max(0, priority + rng.choice([-1, 0, 0, 0, 1])), line, text, key))


# Databases as others may write them.


class Layout:
    """How a tree is laid out. Without arguments: as the program lays out a tree.

    The sizes of the header, a node, a child entry and a value entry, and the tool version; `junk` and `shuffled` are
    seeds, None for padding of 0 and for ascending strings; `shares` is whether a string may be the ending of another one;
    before the node number `gap_at` there is a gap, which no database may have.
    """

    def __init__(self, sizes=(80, 24, 16, 32), version=1, junk=None, shuffled=None, shares=False, gap_at=None):
        self.sizes = sizes
        self.version = version
        self.junk = junk
        self.shuffled = shuffled
        self.shares = shares
        self.gap_at = gap_at


PLAIN = Layout()


def layout(rng):
    sizes = (80, 24, 16, 32)
    if rng.random() < 0.4:
        sizes = tuple(size + rng.choice([0, 0, 1, 8, 13]) for size in sizes)
    return Layout(
        sizes,
        rng.choice([1, 0, 257, 2**64 - 1]),
        rng.choice([None, 7]),
        rng.choice([None, rng.randrange(1000)]),
        rng.random() < 0.5,
        rng.randrange(6) if rng.random() < 0.08 else None,
    )


def string_section(texts, how):
    """The string section of some texts, and where each stands in it."""
    ordered = sorted(texts)
    if how.shuffled is not None:
        random.Random(how.shuffled).shuffle(ordered)
    if how.shares:
        ordered.sort(key=len, reverse=True)
    section, places = b"", {}
    for text in ordered:
        place = section.find(text + b"\0") if how.shares else -1
        if place == -1:
            place = len(section)
            section += text + b"\0"
        places[text] = place
    return section, places


class Writer:
    """The header and the nodes of a database, as they grow: children before their node."""

    def __init__(self, how, strings_at, places):
        self.how = how
        self.strings_at = strings_at
        self.places = places
        self.padding = bytes(7) if how.junk is None else b"\x09" * 7
        self.nodes = 0
        self.data = bytearray()
        self.add(b"", how.sizes[0])

    def add(self, record, size):
        """Adds a record, up to its size with bytes that nobody looks at."""
        spare = size - len(record)
        junk = bytes(spare) if self.how.junk is None else random.Random(self.how.junk + len(self.data)).randbytes(spare)
        self.data += record + junk

    def place(self, text):
        return self.strings_at + self.places[text]

    def add_node(self, node):
        """Adds the records of a node and of those below it; where its own begins."""
        _, node_size, child_size, value_size = self.how.sizes
        children = [(byte, self.add_node(child)) for byte, child in node.children]
        if self.nodes == self.how.gap_at:
            self.data += bytes(8)
        self.nodes += 1
        begins = len(self.data)
        counts = (len(node.children), self.padding, len(node.values))
        self.add(struct.pack("<QB7sQ", self.place(node.prefix), *counts), node_size)
        for byte, at in children:
            self.add(struct.pack("<B7sQ", byte, self.padding, at), child_size)
        for priority, line, *texts in node.values:
            places = [self.place(text) for text in texts]
            self.add(struct.pack("<QQQIH2s", *places, line, priority, self.padding[:2]), value_size)
        return begins


def laid_out(root, how):
    """The bytes of a tree in such a layout."""
    nodes = reference.nodes_of(root)
    texts = {b""}.union(*([node.prefix] for node in nodes), *(value[2:] for node in nodes for value in node.values))
    section, places = string_section(texts, how)
    header_size, node_size, child_size, value_size = how.sizes
    nodes_size = sum(node_size + child_size * len(n.children) + value_size * len(n.values) for n in nodes)
    if how.gap_at is not None and how.gap_at < len(nodes):
        nodes_size += 8
    strings_at = header_size + nodes_size
    writer = Writer(how, strings_at, places)
    root_at = writer.add_node(root)
    numbers = (how.version, strings_at + len(section), *how.sizes, root_at, nodes_size, len(section))
    writer.data[:80] = struct.pack("<8s9Q", reference.SIGNATURE, *numbers)
    return bytes(writer.data) + section


PATHS = [b"/etc/udev/hwdb.d/a.hwdb", b"a.hwdb", b""]
STORED_KEYS = [b" K", b" L", b" KK", b" ", b"  K", b"", b"K", b"!K", b" \xff", b"\x1fK"]


def values(rng, spoilt):
    keys = sorted(set(some(rng, STORED_KEYS, 0, 3)))
    if spoilt and rng.random() < 0.3:
        rng.shuffle(keys)
        keys += keys[:1]
    priorities = [1, 1, 1, 2, 3, 65535] + ([0] if spoilt else [])
    lines = [0, 1, 2, 3, 4294967295]
    texts = [b"1\n2", *VALUES]
    return [(rng.choice(priorities), rng.choice(lines), key, rng.choice(texts), rng.choice(PATHS)) for key in keys]


def tree(rng, spoilt, depth=0):
    """A tree of any kind: with a prefix at the root, with nodes that have nothing, with keys that are none."""
    prefix = rng.choice([b"", b"", pattern(rng), b"[", b"[a", b"*"]) if depth else rng.choice([b"", b"", b"", b"a", b"["])
    bytes_below = sorted(set(some(rng, b"ab*?[]^-:#\n\xc3", 0, 3 if depth < 4 else 0)))
    if spoilt and rng.random() < 0.15:
        bytes_below = rng.choice([bytes_below[::-1], bytes_below + bytes_below, [0] + bytes_below])
    children = [(byte, tree(rng, spoilt, depth + 1)) for byte in bytes_below]
    return reference.Node(prefix, values(rng, spoilt), children)


def loosened(rng, node):
    """A tree with the same map, in which prefixes are cut into nodes and some leaves have nothing."""
    children = [(byte, loosened(rng, child)) for byte, child in node.children]
    if rng.random() < 0.2 and not any(byte == 97 for byte, _ in children):
        children = sorted(children + [(97, reference.Node(b"", [], []))], key=lambda child: child[0])
    whole = reference.Node(node.prefix, node.values, children)
    while whole.prefix and rng.random() < 0.6:
        at = rng.randrange(len(whole.prefix))
        below = whole._replace(prefix=whole.prefix[at + 1 :])
        whole = reference.Node(whole.prefix[:at], [], [(whole.prefix[at], below)])
    return whole


def chain(depth):
    """One path of so many nodes with empty prefixes, and one value at its end."""
    node = reference.Node(b"", [(1, 2, b" K", b"v", b"p")], [])
    for _ in range(depth - 1):
        node = reference.Node(b"", [], [(97, node)])
    return node


def edits(rng, data):
    """Some changes of a database, as (place, bytes)."""
    nodes_end = len(data)
    if len(data) >= 80:
        nodes_end = min(sum(struct.unpack("<Q", data[at : at + 8])[0] for at in (24, 64)), len(data))
    found = []
    for _ in range(rng.choice([1, 1, 1, 2, 3])):
        kind = rng.random()
        if kind < 0.45 and nodes_end >= 88:
            at = 8 * rng.randrange(10 if rng.random() < 0.9 else 1, nodes_end // 8)
            found.append((at, number(rng, data, at)))
        elif kind < 0.6:
            at = 8 * rng.randrange(10)
            found.append((at, number(rng, data, at)))
        elif kind < 0.7 and len(data) >= 80:
            by = rng.choice([1, 8, 16, 24, 32, -1, -8, -24])
            for at, more in ((64, by), (72, -by)):
                before = struct.unpack("<Q", data[at : at + 8])[0]
                found.append((at, struct.pack("<Q", (before + more) % 2**64)))
        else:
            at = rng.randrange(80 if rng.random() < 0.8 else 0, len(data))
            found.append((at, bytes([rng.choice([0, 1, 255, 32, data[at] ^ 1, (data[at] + 1) % 256, rng.randrange(256)])])))
    return found


def number(rng, data, at):
    """Eight bytes that may stand at a place: a number of note, one near what stands there, or one from elsewhere."""
    before = struct.unpack("<Q", data[at : at + 8].ljust(8, b"\0"))[0]
    other_at = 8 * rng.randrange(max(len(data) // 8, 1))
    other = struct.unpack("<Q", data[other_at : other_at + 8].ljust(8, b"\0"))[0]
    near = (before + rng.choice([-24, -16, -8, -1, 1, 8, 16, 24])) % 2**64
    note = rng.choice([0, 1, 2, 79, 80, len(data) - 1, len(data), 2**31, 2**32, 2**63, 2**64 - 24, 2**64 - 1])
    return struct.pack("<Q", rng.choice([near, near, note, other, other]))


# Rules files.

RULE_KEYS = [b"ACTION", b"KERNEL", b"SUBSYSTEM", b"DRIVERS", b"ATTR{name}", b"ATTRS{id/vendor}", b"ENV{X}", b"TAG", b"TEST", b"TEST{0444}", b"PROGRAM", b"RESULT"]
RULE_KEYS += [b"IMPORT{builtin}", b"IMPORT{program}", b"IMPORT{db}", b"GOTO", b"LABEL", b"NAME", b"SYMLINK", b"OPTIONS", b"RUN", b"RUN{builtin}", b"MODE", b"OWNER"]
RULE_KEYS += [b"KERNL", b"ENV", b"ATTR", b"ATTR{", b"{x}", b"", b"SYSCTL{a/b}", b"CONST{arch}", b"SECLABEL{x}"]
RULE_OPERATORS = [b"==", b"!=", b"=", b"+=", b"-=", b":=", b"=", b"==", b"===", b" = ", b"", b"!"]
RULE_VALUES = [b'"add"', b'"event*"', b'"a|b"', b'"1"', b'""', b'"end"', b'"begin"', b'"hwdb --subsystem=usb"', b'"hwdb \'evdev:$attr{name}:\'"', b'"usb_id"']
RULE_VALUES += [b'"nope"', b'e"\\t"', b'e"\\x4"', b'i"X"', b'ie"x"', b'"0600"', b'"$env{X}%k"', b'"x', b"x", b'"a\\"b"', b'"watch"', b'"link_priority=9"', b'"\xff"']
RULE_BETWEEN = [b", ", b",", b" ", b", , ", b"", b", \\\n  ", b"\t"]


def rules_row(rng):
    """Some pairs, a comment, or an empty row."""
    if rng.random() < 0.1:
        return rng.choice([b"", b"# a comment", b"  # one", b"\\", b","])
    row = b""
    for _ in range(rng.choice([1, 2, 2, 3, 5])):
        row += rng.choice(RULE_KEYS) + rng.choice(RULE_OPERATORS) + rng.choice(RULE_VALUES) + rng.choice(RULE_BETWEEN)
    return row


def rules_file(rng):
    return b"\n".join(rules_row(rng) for _ in range(rng.randint(0, 8))) + rng.choice([b"\n", b"\n", b"", b"\\"])
