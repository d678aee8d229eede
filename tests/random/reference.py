"""The rules of the hardware database once more, in the plainest Python.

What the program prints, writes and answers, worked out from the rules alone and as simply as they can be said: lists,
dictionaries, recursion. `tests/random/random` runs the program beside it. Nothing here is fast.

Texts are `bytes` and are ordered by their bytes, a proper prefix first, which is how Python orders them.
"""
import json
import re
import struct
import sys
from collections import namedtuple

# A pattern of 4,096 bytes may have as many stars, and a database 4,097 nodes below one another.
sys.setrecursionlimit(20000)

Assignment = namedtuple("Assignment", "priority line pattern key value path")


# The choice of files.

ETC = b"/etc/udev/hwdb.d"
USR = b"/usr/lib/udev/hwdb.d"


def counts(name):
    """Whether a file of this name is read."""
    return name.endswith(b".hwdb") and not name.startswith(b".") and b"\0" not in name


def chosen(etc, usr):
    """The files that are read, as (priority, stored path, bytes), by priority.

    The folders are dictionaries from names to bytes. A name in etc masks the same name in usr. The names, ascending,
    have the priorities 1, 2, 3 and so on.
    """
    files = {}
    for name in usr:
        files[name] = (USR + b"/" + name, usr[name])
    for name in etc:
        files[name] = (ETC + b"/" + name, etc[name])
    names = sorted(name for name in files if counts(name))
    return [(number, *files[name]) for number, name in enumerate(names, 1)]


# Lines.

BLANKS = b"\t\n\v\f\r "


def lines_of(text):
    """The lines of a file as (number, line). Behind the last byte 10 there is a line only if something stands there."""
    pieces = text.split(b"\n")
    if pieces[-1] == b"":
        pieces.pop()
    return list(enumerate(pieces, 1))


def clean(line):
    """A line without its comment and the blanks at its end."""
    return line.partition(b"#")[0].rstrip(BLANKS)


def is_property(line):
    return line.startswith(b" ")


def is_match(line):
    return line != b"" and not line.startswith(b" ")


# Records, assignments and faults.

FAULT_TEXTS = {
    1: b"property where a match is expected, ignored",
    2: b"record without properties, ignored",
    3: b"match line inside a record, ignored; the record ends here",
    4: b"property without =, ignored",
    5: b"empty key, ignored",
    6: b"byte 0 in the line, ignored",
    7: b"match line longer than 4096 bytes, ignored",
}

FAULT_NAMES = {1: b"stray-property", 2: b"no-property", 3: b"stray-match", 4: b"no-equals", 5: b"empty-key", 6: b"zero-byte", 7: b"long-match"}

LONGEST_PATTERN = 4096


def read_file(path, priority, text):
    """The assignments of a file, and its faults as (line, number of the fault), ascending."""
    assignments, faults, block = [], [], []
    for number, line in lines_of(text):
        if line.startswith(b"#"):
            continue
        if b"\0" in line:
            faults.append((number, 6))
        elif clean(line) == b"":
            read_block(block, path, priority, assignments, faults)
            block = []
        else:
            block.append((number, clean(line)))
    read_block(block, path, priority, assignments, faults)
    return assignments, sorted(faults)


def read_block(block, path, priority, assignments, faults):
    """Adds what the clean lines of a block, which has no empty one, give."""
    while block:
        early, block = run_of(is_property, block)
        matches, block = run_of(is_match, block)
        properties, block = run_of(is_property, block)
        faults += [(number, 1) for number, _ in early]
        faults += [(number, 7) for number, line in matches if len(line) > LONGEST_PATTERN]
        if matches and not properties:
            faults.append((matches[0][0], 2))
        patterns = [line for _, line in matches if len(line) <= LONGEST_PATTERN]
        for number, line in properties:
            key, equals, value = line.lstrip(b" \t").partition(b"=")
            if equals == b"":
                faults.append((number, 4))
            elif key == b"":
                faults.append((number, 5))
            else:
                assignments += [Assignment(priority, number, pattern, key, value, path) for pattern in patterns]
        if block:
            number, line = block[0]
            faults.append((number, 3))
            if len(line) > LONGEST_PATTERN:
                faults.append((number, 7))
            block = block[1:]


def run_of(holds, block):
    """The longest run of such lines in front of a block, and the lines after it."""
    length = 0
    while length < len(block) and holds(block[length][1]):
        length += 1
    return block[:length], block[length:]


# Patterns.

STAR = "any bytes"
EVERY_BYTE = frozenset(range(256))


def spans(*ends):
    """The bytes of some ranges, each from its first byte to its last."""
    return frozenset(byte for first, last in ends for byte in range(first, last + 1))


CLASSES = {
    b"alnum": spans((48, 57), (65, 90), (97, 122)),
    b"alpha": spans((65, 90), (97, 122)),
    b"blank": spans((9, 9), (32, 32)),
    b"cntrl": spans((0, 31), (127, 127)),
    b"digit": spans((48, 57)),
    b"graph": spans((33, 126)),
    b"lower": spans((97, 122)),
    b"print": spans((32, 126)),
    b"punct": spans((33, 47), (58, 64), (91, 96), (123, 126)),
    b"space": spans((9, 13), (32, 32)),
    b"upper": spans((65, 90)),
    b"xdigit": spans((48, 57), (65, 70), (97, 102)),
}


def item_at(pattern, at):
    """The item of a bracket at this place: the bytes that it has, and the place after it."""
    for name, members in CLASSES.items():
        if pattern.startswith(b"[:" + name + b":]", at):
            return members, at + len(name) + 4
    if pattern[at + 1 : at + 2] == b"-" and pattern[at + 2 : at + 3] not in (b"", b"]"):
        return spans((pattern[at], pattern[at + 2])), at + 3
    return spans((pattern[at], pattern[at])), at + 1


def bracket_at(pattern, at):
    """The closed bracket that begins at this `[`: the bytes that it admits, and the place after it. None if none does."""
    at += 1
    inverts = pattern[at : at + 1] in (b"!", b"^")
    if inverts:
        at += 1
    members, items = frozenset(), 0
    while at < len(pattern):
        if items > 0 and pattern[at : at + 1] == b"]":
            return (EVERY_BYTE - members if inverts else members), at + 1
        more, at = item_at(pattern, at)
        members, items = members | more, items + 1
    return None


def tokens(pattern):
    """A pattern as a list of stars and of sets, each of the bytes that may stand in one place."""
    found, at = [], 0
    while at < len(pattern):
        byte = pattern[at : at + 1]
        bracket = bracket_at(pattern, at) if byte == b"[" else None
        if bracket is not None:
            found.append(bracket[0])
            at = bracket[1]
            continue
        if byte == b"*":
            found.append(STAR)
        elif byte == b"?":
            found.append(EVERY_BYTE)
        else:
            found.append(frozenset(byte))
        at += 1
    return found


def matches(pattern, device):
    """Whether a pattern matches the whole device."""
    return tokens_match(tokens(pattern), 0, device, 0, set())


def tokens_match(wanted, token, device, at, failed):
    """Whether the tokens from one on match the device from `at` on. `failed` has the places known not to."""
    if token == len(wanted):
        return at == len(device)
    if (token, at) in failed:
        return False
    if wanted[token] == STAR:
        answer = tokens_match(wanted, token + 1, device, at, failed) or (
            at < len(device) and tokens_match(wanted, token, device, at + 1, failed)
        )
    else:
        fits = at < len(device) and device[at] in wanted[token]
        answer = fits and tokens_match(wanted, token + 1, device, at + 1, failed)
    if not answer:
        failed.add((token, at))
    return answer


# Answers.


def surviving(assignments):
    """Of the assignments with one pattern and key the one of the greatest priority and, within it, line."""
    last = {}
    for a in sorted(assignments, key=lambda a: (a.priority, a.line)):
        last[a.pattern, a.key] = a
    return list(last.values())


def position_of(a):
    return (a.priority, a.line, a.pattern, a.key)


def answers(assignments, device):
    """The assignments whose pattern matches, by priority, line, pattern and key."""
    matching = {pattern: matches(pattern, device) for pattern in {a.pattern for a in assignments}}
    return sorted((a for a in assignments if matching[a.pattern]), key=position_of)


def effective(assignments, device):
    """For each key the value of its last answer, as (key, value), ascending by key."""
    values = {}
    for a in answers(assignments, device):
        values[a.key] = a.value
    return sorted(values.items())


# The text of a position.


def position_text(position):
    priority, line, pattern, key = position
    return b"%d:%d:%s:%s" % (priority, line, pattern.hex().encode(), key.hex().encode())


def read_position(text):
    """The position that a text spells, or None."""
    parts = text.split(b":")
    if len(parts) != 4:
        return None
    priority, line = read_number(parts[0], 65535), read_number(parts[1], 4294967295)
    pattern, key = read_hexadecimal(parts[2]), read_hexadecimal(parts[3])
    if None in (priority, line, pattern, key):
        return None
    return (priority, line, pattern, key)


def read_number(text, greatest):
    digits = text != b"" and all(byte in b"0123456789" for byte in text)
    if not digits or (text != b"0" and text.startswith(b"0")) or int(text) > greatest:
        return None
    return int(text)


def read_hexadecimal(text):
    if len(text) % 2 == 1 or not all(byte in b"0123456789abcdefABCDEF" for byte in text):
        return None
    return bytes.fromhex(text.decode())


# The database that is written.

# A node's values are (priority, line, stored key, value, path), its children (byte, node).
Node = namedtuple("Node", "prefix values children")

SIGNATURE = b"KSLPHHRH"
HEADER = struct.Struct("<8s9Q")
NODE = struct.Struct("<QB7xQ")
CHILD = struct.Struct("<B7xQ")
VALUE = struct.Struct("<QQQIH2x")


def tight_tree(assignments):
    """The tree of these assignments in which each node but the root has a value or at least two children."""
    values = {}
    for a in assignments:
        values.setdefault(a.pattern, []).append((a.priority, a.line, b" " + a.key, a.value, a.path))
    return tight_node(b"", 0, values)


def tight_node(path, start, values):
    """The node with this path, whose prefix is the path from `start` on. All the patterns begin with the path."""
    below = {}
    for pattern in values:
        if pattern != path:
            below.setdefault(pattern[len(path)], {})[pattern] = values[pattern]
    children = [
        (byte, tight_node(common_beginning(below[byte]), len(path) + 1, below[byte])) for byte in sorted(below)
    ]
    own = sorted(values.get(path, []), key=lambda value: value[2])
    return Node(path[start:], own, children)


def common_beginning(texts):
    """The longest text that all of these begin with. The least and the greatest differ soonest."""
    least, greatest = min(texts), max(texts)
    length = 0
    while length < len(least) and least[length] == greatest[length]:
        length += 1
    return least[:length]


def nodes_of(node):
    """The nodes of a tree, children before their parent."""
    found = []
    for _, child in node.children:
        found += nodes_of(child)
    return found + [node]


def written(assignments):
    """The bytes of the database of these assignments, of which no two have the same pattern and key."""
    root = tight_tree(assignments)
    nodes = nodes_of(root)
    texts = {b""}
    for node in nodes:
        texts.add(node.prefix)
        for _, _, key, value, path in node.values:
            texts |= {key, value, path}
    nodes_size = sum(24 + 16 * len(node.children) + 32 * len(node.values) for node in nodes)
    places, strings = {}, []
    place = 80 + nodes_size
    for text in sorted(texts):
        places[text] = place
        strings.append(text + b"\0")
        place += len(text) + 1
    records = bytearray()
    root_at = write_node(root, places, records)
    header = HEADER.pack(SIGNATURE, 1, place, 80, 24, 16, 32, root_at, nodes_size, place - 80 - nodes_size)
    return header + bytes(records) + b"".join(strings)


def write_node(node, places, records):
    """Adds the records of a node's children and then its own; where its own begins."""
    children = [(byte, write_node(child, places, records)) for byte, child in node.children]
    begins = 80 + len(records)
    records += NODE.pack(places[node.prefix], len(children), len(node.values))
    for byte, child_at in children:
        records += CHILD.pack(byte, child_at)
    for priority, line, key, value, path in node.values:
        records += VALUE.pack(places[key], places[value], places[path], line, priority)
    return begins


# The check of a database.

DEEPEST = 4097

Sizes = namedtuple("Sizes", "header node child value")


def check(data):
    """The faults of a database, as they are printed: at most one of B1 to B5, else all of B6 to B11 that stand."""
    if len(data) < 80:
        return ["B1"]
    signature, _, file_size, *sizes, root_at, nodes_size, strings_size = HEADER.unpack(data[:80])
    if signature != SIGNATURE:
        return ["B2"]
    sizes = Sizes(*sizes)
    if sizes.header < 80 or sizes.node < 24 or sizes.child < 16 or sizes.value < 32:
        return ["B3"]
    if file_size != len(data) or sizes.header + nodes_size + strings_size != file_size:
        return ["B4"]
    if strings_size == 0 or data[-1] != 0:
        return ["B5"]
    faults = []
    nodes_end = sizes.header + nodes_size
    end = check_node(data, sizes, nodes_end, root_at, sizes.header, nodes_end, 1, faults)
    if end is not None and end != nodes_end:
        faults.append("B6 at %d" % root_at)
    return faults


def check_node(data, sizes, strings_at, node_at, beginning, limit, depth, faults):
    """Adds the faults of a node and of what is below it. Where its record ends, or None if it doesn't fit."""
    if node_at < beginning or node_at + sizes.node > limit:
        faults.append("B6 at %d" % node_at)
        return None
    prefix_at, children, values = NODE.unpack_from(data, node_at)
    children_at = node_at + sizes.node
    values_at = children_at + children * sizes.child
    end = values_at + values * sizes.value
    if end > limit:
        faults.append("B6 at %d" % node_at)
        return None
    if depth > DEEPEST:
        faults.append("B7 at %d" % node_at)
    if not strings_at <= prefix_at < len(data):
        faults.append("B9 at %d" % node_at)
    previous_byte = 0
    next_beginning = beginning
    for number in range(children):
        entry_at = children_at + number * sizes.child
        byte, child_at = CHILD.unpack_from(data, entry_at)
        if byte <= previous_byte:
            faults.append("B8 at %d" % entry_at)
        previous_byte = byte
        if next_beginning is not None:
            next_beginning = check_node(
                data, sizes, strings_at, child_at, next_beginning, node_at, depth + 1, faults
            )
    if next_beginning is not None and next_beginning != node_at:
        faults.append("B6 at %d" % node_at)
    check_values(data, sizes, strings_at, values_at, values, faults)
    return end


def check_values(data, sizes, strings_at, values_at, values, faults):
    """Adds the faults of a node's values."""
    previous_key = None
    for number in range(values):
        entry_at = values_at + number * sizes.value
        *places, _, priority = VALUE.unpack_from(data, entry_at)
        for field, place in enumerate(places):
            if not strings_at <= place < len(data):
                faults.append("B9 at %d" % (entry_at + 8 * field))
        key = string_at(data, places[0]) if strings_at <= places[0] < len(data) else None
        if key is not None and previous_key is not None and key <= previous_key:
            faults.append("B10 at %d" % entry_at)
        previous_key = key
        if priority == 0:
            faults.append("B11 at %d" % entry_at)


def string_at(data, place):
    """The string that stands at a place, up to the next byte 0."""
    return bytes(data[place : data.index(0, place)])


def assignments_in(data):
    """The assignments of a database without a fault."""
    _, _, _, *sizes, root_at, _, _ = HEADER.unpack(data[:80])
    found = []
    add_assignments(data, Sizes(*sizes), root_at, b"", found)
    return found


def add_assignments(data, sizes, node_at, path, found):
    """Adds the assignments of the node at a place, whose parent's path and own byte are given, and of those below it."""
    prefix_at, children, values = NODE.unpack_from(data, node_at)
    path += string_at(data, prefix_at)
    children_at = node_at + sizes.node
    for number in range(children):
        byte, child_at = CHILD.unpack_from(data, children_at + number * sizes.child)
        add_assignments(data, sizes, child_at, path + bytes([byte]), found)
    values_at = children_at + children * sizes.child
    for number in range(values):
        key_at, value_at, path_at, line, priority = VALUE.unpack_from(data, values_at + number * sizes.value)
        key = string_at(data, key_at)
        if key.startswith(b" "):
            value, file = string_at(data, value_at), string_at(data, path_at)
            found.append(Assignment(priority, line, path, key[1:], value, file))


# What the commands print.


def properties_text(assignments, device):
    return b"".join(b"%s=%s\n" % pair for pair in effective(assignments, device))


def origin_line(a):
    return b"    %s:%d  %s\n" % (a.path, a.line, a.pattern)


def answers_by_key(assignments, device):
    """Each key, ascending, with its answers, from the last to the first."""
    found = {}
    for a in answers(assignments, device):
        found.setdefault(a.key, []).append(a)
    return [(key, of_key[::-1]) for key, of_key in sorted(found.items())]


def explained_text(assignments, device):
    """What `explain` prints: for each key its last answer, and then the others, from the last to the first."""
    text = b""
    for key, of_key in answers_by_key(assignments, device):
        begins = b""
        for a in of_key:
            text += begins + b"%s=%s\n" % (key, a.value) + origin_line(a)
            begins = b"  overrides "
    return text


def list_line(a):
    return b"%s\t%s\t%s=%s\n" % (position_text(position_of(a)), a.pattern, a.key, a.value)


def fault_line(path, line, fault):
    return b"%s:%d: %s\n" % (path, line, FAULT_TEXTS[fault])


def refusal(text):
    return b"hwdb: %s\n" % text.encode()


def compiled(etc, usr):
    """What two folders give: the assignments that survive, and the text of all fault lines."""
    assignments, fault_lines = [], b""
    for priority, path, text in chosen(etc, usr):
        more, faults = read_file(path, priority, text)
        assignments += more
        fault_lines += b"".join(fault_line(path, line, fault) for line, fault in faults)
    return surviving(assignments), fault_lines


def asked(file, text, device):
    """What `ask` prints on standard output and on standard error of one file."""
    assignments, faults = read_file(file, 1, text)
    errors = b"".join(fault_line(file, line, fault) for line, fault in faults)
    return properties_text(surviving(assignments), device), errors


def listed(assignments, device, after, limit, line_of=list_line):
    """What `list` prints of the answers after a position (None: of all), as many as the limit says (None: all)."""
    lines = [line_of(a) for a in answers(assignments, device) if after is None or position_of(a) > after]
    return b"".join(lines if limit is None else lines[:limit])


def several(texts):
    """The texts of several devices, an empty line between two."""
    return b"\n".join(texts)


def devices_of(text):
    """The devices that standard input names: its lines."""
    return [line for _, line in lines_of(text)]


# What `check` prints.

FAULT_HINTS = {
    1: b"put a match line above it, with no empty line between them",
    2: b"put a property below it, on a line that begins with a space, or take the match line away",
    3: b"put an empty line above it and its properties below it; a property begins with a space",
    4: b"write it as KEY=VALUE; a match line begins without a space",
    5: b"put a key in front of the =",
    6: b"take the byte away, or save the file as text without bytes 0, as UTF-8",
    7: b"shorten it, as by a * in place of what may differ",
}
WARNINGS = {
    "mark": (b"the pattern begins with a byte order mark", b"save the file without a byte order mark"),
    "tab": (b"a match line that begins with a tab", b"begin a property with a space"),
    "return": (b"a carriage return in the middle of the line", b"end each line with a newline alone"),
    "open": (b"a [ that is never closed stands for itself", b"close it with a ], or write [[] for the byte"),
    "empty": (b"a range without members", b"put the lower end of the range first"),
    "blank": (b"a blank beside the first =", b"write %s"),
    "cut": (b"a # without a blank before it cuts the value", b"put a blank before a comment; a value can't hold a #"),
    "repeated": (b"a match line that stands in its record already", b"take one of the two away"),
    "replaced": (b"an assignment that line %d replaces", b"take one of the two away"),
    "deep": (b"with other lines, more than 2047 bytes may be too deep for udev", b"shorten it: systemd 262 refuses a depth of more than 2048, which hwdb verify tells"),
    "long": (b"udev takes at most 2046 bytes from the first *, ? or [ on", b"shorten it: systemd 252 and 257 crash at it, and 262 finds nothing"),
}
WARNING_NAMES = {
    "mark": b"byte-order-mark",
    "tab": b"leading-tab",
    "return": b"carriage-return",
    "open": b"open-bracket",
    "empty": b"empty-range",
    "blank": b"spaced-equals",
    "cut": b"cut-value",
    "repeated": b"repeated-match",
    "replaced": b"replaced",
    "deep": b"too-long-for-udev",
    "long": b"too-long-for-udev",
}
MOST_SHOWN = 160
# How many bytes before a place are shown, if the line's front isn't.
BEFORE_PLACE = 80


def shown(text):
    """Bytes 32 to 126 as they stand, and the others in hexadecimal."""
    return b"".join(b"%c" % byte if 32 <= byte <= 126 else b"\\x%02x" % byte for byte in text)


def report(path, number, what, kind, text, place, hint):
    """A line and the place in it, counted in bytes from 0, between what is said of it, with its kind, and what to do."""
    # A long line is shown around its place, if that isn't among the bytes at its front (hwdb(8)).
    start = place - BEFORE_PLACE if len(text) > MOST_SHOWN and place >= MOST_SHOWN else 0
    end = start + MOST_SHOWN
    front, back = b"..." if start > 0 else b"", b"..." if len(text) > end else b""
    mark = b"    " + b" " * len(front + shown(text[start:place])) + b"^\n"
    line = b"    " + front + shown(text[start:end]) + back + b"\n"
    return b"%s:%d:%d: %s [%s]\n" % (path, number, place + 1, what, kind) + line + mark + b"    hint: " + hint + b"\n"


def indent_of(text):
    return len(text) - len(text.lstrip(b" \t"))


def fault_place(kind, text):
    if kind in (1, 4, 5):
        return indent_of(text)
    return {6: text.find(b"\0"), 7: LONGEST_PATTERN}.get(kind, 0)


def first_open(pattern):
    """Where the first `[` stands that begins no closed bracket; the pattern's length where there is none."""
    at = 0
    while at < len(pattern):
        if pattern[at : at + 1] == b"[":
            bracket = bracket_at(pattern, at)
            if bracket is None:
                return at
            at = bracket[1]
        else:
            at += 1
    return at


def first_wild(pattern):
    """Where the first byte stands that may be a wildcard; the pattern's length where there is none."""
    return min([at for at in (pattern.find(wild) for wild in (b"*", b"?", b"[")) if at >= 0], default=len(pattern))


def is_too_long(cleaned):
    """Whether a line is a match line that is read, and that udev can't take."""
    return is_match(cleaned) and len(cleaned) <= LONGEST_PATTERN and len(cleaned) - first_wild(cleaned) > 2046


def empty_range(pattern):
    """Where the first range stands whose first byte is above its last one, before any open `[`; None if there is none."""
    at, end = 0, first_open(pattern)
    while at < end:
        if pattern[at : at + 1] != b"[":
            at += 1
            continue
        behind = bracket_at(pattern, at)[1]
        at += 2 if pattern[at + 1 : at + 2] in (b"!", b"^") else 1
        while at < behind - 1:
            members, after = item_at(pattern, at)
            if not members:
                return at
            at = after
        at = behind
    return None


def repeated_lines(text):
    """The numbers of the match lines that repeat one of those directly above them."""
    found, above = [], []
    for number, line in lines_of(text):
        if line.startswith(b"#") or b"\0" in line:
            continue
        if not is_match(clean(line)):
            above = []
            continue
        if clean(line) in above:
            found.append(number)
        above.append(clean(line))
    return found


def replaced_lines(text):
    """For each line the last one that gives one of its patterns the same key, if that one gives it another value."""
    assignments, _ = read_file(b"", 1, text)
    last, found = {}, {}
    for a in sorted(assignments, key=lambda a: a.line):
        last[a.pattern, a.key] = a
    for a in assignments:
        by = last[a.pattern, a.key]
        if by.line > a.line and by.value != a.value:
            found[a.line] = max(by.line, found.get(a.line, 0))
    return found


def warnings_of(text):
    """The warnings of a file as (line, text of the line, what is said, kind, place, hint), by line."""
    found, repeated, replaced = [], set(repeated_lines(text)), replaced_lines(text)
    for number, line in lines_of(text):
        cleaned = clean(line)
        if line.startswith(b"#") or b"\0" in line:
            continue
        key, equals, value = cleaned.lstrip(b" \t").partition(b"=")
        kinds = [
            ("mark", 0, cleaned.startswith(b"\xef\xbb\xbf")),
            ("tab", 0, cleaned.startswith(b"\t")),
            ("return", line.find(b"\r"), b"\r" in cleaned),
            ("open", first_open(cleaned), is_match(cleaned) and first_open(cleaned) < len(cleaned)),
            ("empty", empty_range(cleaned), is_match(cleaned) and empty_range(cleaned) is not None),
            (
                "blank",
                line.find(b"="),
                is_property(cleaned) and equals and key and (key[-1:] in b" \t" or value[:1] in (b" ", b"\t")),
            ),
            (
                "cut",
                line.find(b"#"),
                is_property(cleaned) and equals and line[len(cleaned) : len(cleaned) + 1] == b"#",
            ),
            ("repeated", 0, number in repeated),
            ("replaced", indent_of(line), number in replaced),
            ("long", first_wild(cleaned), is_too_long(cleaned)),
            ("deep", 2047, is_match(cleaned) and 2047 < len(cleaned) <= LONGEST_PATTERN and not is_too_long(cleaned)),
        ]
        for kind, place, holds in kinds:
            if holds:
                what, hint = WARNINGS[kind]
                if kind == "blank":
                    hint %= shown(key.rstrip(BLANKS)) + b"=" + shown(value.lstrip(b" \t"))
                found.append((number, line, what % replaced[number] if kind == "replaced" else what, kind, place, hint))
    return found


def counted(number, word):
    return b"%d %s%s" % (number, word, b"" if number == 1 else b"s")


def checked(files, strict):
    """What `check` prints of files, given as (path, bytes), and its status."""
    printed, counts = b"", [len(files), 0, 0, 0]
    for path, text in files:
        texts = dict(lines_of(text))
        assignments, faults = read_file(path, 1, text)
        warnings = warnings_of(text)
        told = []
        for number, kind in faults:
            line = texts[number]
            told.append((number, report(path, number, b"error: " + FAULT_TEXTS[kind], FAULT_NAMES[kind], line, fault_place(kind, line), FAULT_HINTS[kind])))
        for number, line, what, kind, place, hint in warnings:
            told.append((number, report(path, number, b"warning: " + what, WARNING_NAMES[kind], line, place, hint)))
        # By line: of one line faults come first, and each of both keeps its order.
        printed += b"".join(text for _, text in sorted(told, key=lambda it: it[0]))
        counts[1] += len(assignments)
        counts[2] += len(faults)
        counts[3] += len(warnings)
    words = [b"file", b"assignment", b"fault", b"warning"]
    printed += b", ".join(counted(number, word) for number, word in zip(counts, words)) + b"\n"
    return printed, 1 if counts[2] or strict and counts[3] else 0


# What `check` says of patterns that match no string that udev asks, and of properties that don't fit: this reference doesn't know it.
UNKNOWN = (
    b"no string that udev asks goes on like this",
    b"no string that udev asks begins like this",
    b"a string that udev asks hardly goes on like this",
    b"a property that nothing is known to read",
    b"a property that is no longer read",
    b"a code that its property doesn't take",
    b"a key that isn't known",
    b"a value that its property doesn't take",
    b"a row of the matrix has zeros alone",
    b"the determinant of the matrix is 0",
    b"more than one resolution is the default",
    b"a property that isn't read below its patterns",
    b"a property that is read with others alone",
    b"a version or a date of the firmware beside the model",
)


def known_of(out, status, strict):
    """What `check` printed but for these warnings, and the status that it would have without them; or None if they don't add up."""
    kept, left_out, is_left_out = [], 0, False
    *lines, last = out.split(b"\n")[:-1] or [b""]
    for line in lines:
        if not line.startswith(b"    "):
            is_left_out = line.rpartition(b" [")[0].endswith(tuple(b": warning: " + text for text in UNKNOWN))
            left_out += is_left_out
        if not is_left_out:
            kept.append(line)
    counts = re.fullmatch(rb"(.*, (\d+) faults?, )(\d+) warnings?", last)
    if not counts:
        return None
    faults, warnings = int(counts[2]), int(counts[3])
    if status != (1 if faults or strict and warnings else 0) or warnings < left_out:
        return None
    warnings -= left_out
    kept.append(counts[1] + counted(warnings, b"warning"))
    return b"\n".join(kept) + b"\n", 1 if faults or strict and warnings else 0


# What `update --verbose` says before the fault lines.


def progress(etc, usr):
    """A line for each file that is read, one that counts, and the match lines that udev can't take."""
    text, given, long = b"", [], b""
    for priority, path, content in chosen(etc, usr):
        name = path.split(b"/")[-1]
        is_masking = path == ETC + b"/" + name and name in usr
        text += path + (b" masks " + USR + b"/" + name if is_masking else b"") + b"\n"
        given += read_file(path, priority, content)[0]
        for number, line in lines_of(content):
            if not line.startswith(b"#") and b"\0" not in line and is_too_long(clean(line)):
                long += b"%s:%d: warning: %s\n" % (path, number, WARNINGS["long"][0])
    files = counted(len(chosen(etc, usr)), b"file")
    once = {(a.priority, a.line, a.pattern, a.key) for a in given}
    return text + b"%s, %s, %d kept\n" % (files, counted(len(once), b"assignment"), len(surviving(given))) + long


# What `dump`, `verify` and `diff` print.


def record_text(a):
    return b"# %s:%d\n%s\n %s=%s\n\n" % (a.path, a.line, a.pattern, a.key, a.value)


def is_said(a):
    """Whether the record, read as a file, says this assignment and nothing else."""
    said, faults = read_file(a.path, a.priority, record_text(a))
    return not faults and [(b.pattern, b.key, b.value) for b in said] == [(a.pattern, a.key, a.value)]


def dumped(assignments):
    """The text of a database, and None; or None, and the first pattern that no text can say."""
    for a in sorted(assignments, key=position_of):
        if not is_said(a):
            return None, a.pattern
    return b"".join(record_text(a) for a in sorted(assignments, key=position_of)), None


def shape_in(data):
    """How many nodes a database without a fault has, and how many stand one below the other at most."""
    _, _, _, *sizes, root_at, _, _ = HEADER.unpack(data[:80])
    return shape_at(data, Sizes(*sizes), root_at)


def shape_at(data, sizes, node_at):
    _, children, _ = NODE.unpack_from(data, node_at)
    count, deepest = 1, 0
    for number in range(children):
        _, child_at = CHILD.unpack_from(data, node_at + sizes.node + number * sizes.child)
        more, depth = shape_at(data, sizes, child_at)
        count, deepest = count + more, max(deepest, depth)
    return count, deepest + 1


def verified(data):
    assignments = assignments_in(data)
    nodes, depth = shape_in(data)
    counts = {
        "files": len({a.path for a in assignments}),
        "patterns": len({a.pattern for a in assignments}),
        "keys": len({a.key for a in assignments}),
        "assignments": len(assignments),
        "nodes": nodes,
        "depth": depth,
        "bytes": len(data),
    }
    text = b"".join(b"%s: %d\n" % (name.encode(), number) for name, number in counts.items())
    return text + (b"warning: udev of systemd 262 refuses a depth of more than 2048\n" if depth > 2048 else b"")


CUT = "the file was cut short or written over"
DAMAGED = "the file is damaged, or a tool wrote it that orders its records otherwise"
VERDICTS = {
    "B1": ("it has fewer than the 80 bytes of a header", "the file was cut short, or is no hardware database"),
    "B2": ("it doesn't begin with the signature KSLPHHRH", "the file is no hardware database"),
    "B3": (
        "its header or its records are shorter than their known fields",
        "an old tool wrote the file, or it is damaged",
    ),
    "B4": ("its length isn't the one that its header says", CUT),
    "B5": ("it has no strings, or the last one has no end", CUT),
    "B6": ("a node, or its children, isn't where the order of the nodes has it", DAMAGED),
    "B7": ("a node is more than 4097 nodes deep", DAMAGED),
    "B8": ("a child of a node has byte 0, or one that isn't above that of the child before it", DAMAGED),
    "B9": ("a string is said to be outside of the strings", DAMAGED),
    "B10": ("a key of a node isn't above the key before it", DAMAGED),
    "B11": ("the file of an assignment has priority 0", DAMAGED),
}


def remedy(path):
    """What to do about a file that is no database."""
    return "'hwdb check' is for text files" if path.endswith(".hwdb") else "make it anew with 'hwdb update'"


def bad_database(fault, path):
    """What commands say of a fault of the database at a path."""
    return "bad database: %s: %s: %s" % (fault, path, remedy(path))


def verdict(fault, path):
    """What `verify` says of it."""
    what, cause = VERDICTS[fault.split()[0]]
    return "bad database: %s: %s\n    %s\n    cause: %s\n    hint: %s" % (fault, path, what, cause, remedy(path))


def differences(old, new):
    """The lines of what came, went and changed, by pattern and key."""
    was, now = ({(a.pattern, a.key): a for a in assignments} for assignments in (old, new))
    text = b""
    for place in sorted({*was, *now}):
        before, after = was.get(place), now.get(place)
        if before is None:
            text += b"+\t%s\t%s\n" % (place[0], sourced(after))
        elif after is None:
            text += b"-\t%s\t%s\n" % (place[0], sourced(before))
        elif before.value != after.value:
            text += b"~\t%s\t%s\t%s\n" % (place[0], sourced(before), sourced(after))
    return text


def grouped_differences(old, new):
    """The same by record: each pattern on a line, and below it the lines of its keys, without it.

    A pattern that went, and the first that came with its keys and values, are one record: the new pattern has `>`, what stayed `=`.
    """
    was, now = ({(a.pattern, a.key): a for a in assignments} for assignments in (old, new))
    records = {}
    for place in sorted({*was, *now}):
        before, after = was.get(place), now.get(place)
        if before is None or after is None or before.value != after.value:
            records.setdefault(place[0], []).append((before, after))
    # By properties: the patterns that came with them, and the patterns that went with them.
    came, went = {}, {}
    for pattern, changes in records.items():
        for side, others, patterns in ((0, 1, went), (1, 0, came)):
            if not any(change[others] for change in changes):
                properties = tuple((change[side].key, change[side].value) for change in changes)
                patterns.setdefault(properties, []).append(pattern)
    first_of = {pattern: came[its][0] for its in went if its in came for pattern in went[its]}
    text = b""
    for pattern, changes in records.items():
        if pattern in first_of:
            first = first_of[pattern]
            place = records[first][0][1]
            text += b"%s\n>\t%s\t%s:%d\n" % (pattern, first, place.path, place.line)
            text += b"".join(b"=\t%s\n" % sourced(before) for before, _ in changes)
        elif pattern not in first_of.values():
            text += pattern + b"\n" + b"".join(change_line(*change) for change in changes)
    return text


# What Markdown or HTML takes for more than itself.
MARKUP = {*range(32), *b"&<>|*_`[]\\~"}


def code(text):
    return b"<code>" + b"".join(b"&#%d;" % byte if byte in MARKUP else bytes([byte]) for byte in text) + b"</code>"


def cell(a):
    return code(a.value) + b"<br>" + code(b"%s:%d" % (a.path, a.line)) if a else b""


def table_differences(old, new):
    """The same as tables of Markdown, one for each pattern."""
    was, now = ({(a.pattern, a.key): a for a in assignments} for assignments in (old, new))
    tables = {}
    for place in sorted({*was, *now}):
        before, after = was.get(place), now.get(place)
        if before is None or after is None or before.value != after.value:
            tables.setdefault(place[0], []).append(b"| %s | %s | %s |\n" % (code(place[1]), cell(before), cell(after)))
    head = b"\n\n| Property | Before | After |\n|---|---|---|\n"
    return b"".join(code(pattern) + head + b"".join(rows) + b"\n" for pattern, rows in tables.items())


def change_line(before, after):
    sign = b"+" if before is None else b"-" if after is None else b"~"
    return b"\t".join([sign] + [sourced(a) for a in (before, after) if a is not None]) + b"\n"


def sourced(a):
    return b"%s=%s\t%s:%d" % (a.key, a.value, a.path, a.line)


# What they print with `--json`: a text is a string where it is UTF-8, else the list of its bytes.


def text_value(text):
    try:
        return text.decode()
    except UnicodeDecodeError:
        return list(text)


def json_line(value):
    text = json.dumps(value, ensure_ascii=False, separators=(",", ":"))
    # What a terminal acts on is escaped too, which json leaves as it is.
    return re.sub("[\x7f-\x9f]", lambda its: "\\u%04x" % ord(its[0]), text).encode() + b"\n"


def properties_json(assignments, device):
    """A device and its properties; those whose keys aren't UTF-8 stand under `raw`, as pairs."""
    value = {"device": text_value(device), "properties": {}}
    raw = []
    for key, text in effective(assignments, device):
        if isinstance(text_value(key), str):
            value["properties"][text_value(key)] = text_value(text)
        else:
            raw.append([text_value(key), text_value(text)])
    if raw:
        value["raw"] = raw
    return json_line(value)


def origin_values(a):
    return {"value": text_value(a.value), "path": text_value(a.path), "line": a.line, "pattern": text_value(a.pattern)}


def explained_json(assignments, device):
    """A line for each key: its last answer, and the others, from the last to the first."""
    text = b""
    for key, (last, *others) in answers_by_key(assignments, device):
        begins = {"device": text_value(device), "key": text_value(key)}
        text += json_line({**begins, **origin_values(last), "overrides": [origin_values(a) for a in others]})
    return text


def list_line_json(a):
    return json_line(
        {
            "position": text_value(position_text(position_of(a))),
            "path": text_value(a.path),
            "line": a.line,
            "priority": a.priority,
            "pattern": text_value(a.pattern),
            "key": text_value(a.key),
            "value": text_value(a.value),
        }
    )
