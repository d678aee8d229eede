"""What the worked rows share: a root with its files and its database, faults as they are told, and outputs that are cut short."""
import json
import os
import resource
import shutil
import struct
import subprocess

import program
from judge import judge
from program import SECONDS, encoded, read, run, write

# Where the program finds its files, in a folder of the test's own.
ROOT = "r"
ETC = "r/etc/udev/hwdb.d"
USR = "r/usr/lib/udev/hwdb.d"
DATABASE = "r/etc/udev/hwdb.bin"
STORED_ETC = "/etc/udev/hwdb.d/"
STORED_USR = "/usr/lib/udev/hwdb.d/"


def expect(what, words, status=0, out=b"", err=b"", given=b""):
    """Runs the program, and compares its status and both outputs."""
    seen = run(*words, given=given)
    judge((what, words), seen, (status, encoded(out), encoded(err)))


def folders(etc=(), usr=()):
    """Makes the root anew, with these files, pairs of a name and a text, in its two folders."""
    shutil.rmtree(ROOT, ignore_errors=True)
    for folder, files in ((ETC, etc), (USR, usr)):
        os.makedirs(folder)
        for name, text in files:
            write(os.path.join(folder, name), text)


def updated(etc=(), usr=(), err=b""):
    """Makes the root anew and its database; compares the fault lines."""
    folders(etc, usr)
    expect("update", ["-r", ROOT, "update"], err=err)


def given(database):
    """Puts bytes in place of the database."""
    if not os.path.isdir(ROOT):
        folders()
    if os.path.exists(DATABASE):
        os.remove(DATABASE)
    write(DATABASE, database)


def databases():
    """The databases of tests/run/worked.databases by their names."""
    with open(os.path.join(os.path.dirname(os.path.abspath(__file__)), "worked.databases"), encoding="ascii") as file:
        lines = [line.split() for line in file if line.strip() and not line.startswith("#")]
    return {name: bytes.fromhex(digits) for name, digits in lines}


def bad(fault, path=DATABASE, remedy="make it anew with 'hwdb update'"):
    return "hwdb: bad database: %s: %s: %s\n" % (fault, path, remedy)


def value_of(line):
    """The value of a line of JSON; one without members where it is none."""
    try:
        return json.loads(line)
    except ValueError:
        return {}


FAULTS = {
    "F1": "property where a match is expected, ignored",
    "F2": "record without properties, ignored",
    "F3": "match line inside a record, ignored; the record ends here",
    "F4": "property without =, ignored",
    "F5": "empty key, ignored",
    "F6": "byte 0 in the line, ignored",
    "F7": "match line longer than 4096 bytes, ignored",
}


def said(text):
    """The assignments of a row, as line, pattern, and property; and the faults, as line and text."""
    assignments, faults = [], []
    for part in text.split(";")[:-1]:
        line, rest = part.split(" ", 1)
        if rest in FAULTS:
            faults.append((line, FAULTS[rest]))
        else:
            assignments.append((line, *rest.split(" ", 1)))
    return assignments, faults


FAULTY = " S=1\na\n K=1\n NOEQ\n =v\nb\n\nc\n"
FAULT_LINES = "".join("%s:%s: %s\n" % ("{path}", *fault) for fault in said("1 F1;4 F4;5 F5;6 F3;8 F2;")[1])


def numbers(*each):
    return struct.pack("<%dQ" % len(each), *each)


STRINGS = b"\0 K\0/etc/udev/hwdb.d/1.hwdb\0v\0"


def made(nodes, root):
    """A database of these nodes, and of the strings of one value."""
    return b"KSLPHHRH" + numbers(1, 80 + len(nodes) + 30, 80, 24, 16, 32, root, len(nodes), 30) + nodes + STRINGS


def node(strings, children, has_value):
    """A node without a prefix, and with one value `K=v` or none."""
    text = numbers(strings, len(children), int(has_value)) + b"".join(numbers(*child) for child in children)
    return text + (numbers(strings + 1, strings + 28, strings + 4, 2 | 1 << 32) if has_value else b"")


def chain(below, pattern=None):
    """The tree of one pattern, of so many bytes `a`, with one byte per node and the value at its end."""
    pattern = pattern or b"a" * below
    strings = 80 + 56 + len(pattern) * 40
    nodes, at = node(strings, [], True), 80
    for byte in reversed(pattern):
        begins = 80 + len(nodes)
        nodes += node(strings, [(byte, at)], False)
        at = begins
    return made(nodes, at)


def both(etc, usr=""):
    """Makes the database of a file in each folder."""
    updated([("a.hwdb", etc)], [("b.hwdb", usr)])


def database_of(text):
    both(text)
    return read(DATABASE)


def cut(words, room, err_is_cut=False, lines=b""):
    """The status, the output that can take so many bytes (standard output, or standard error) and the other one, of a run.

    The limit is that of the size of a file: what is after it is refused, and the one in which it comes is taken in part.
    """
    write("lines", lines)
    hard = resource.getrlimit(resource.RLIMIT_FSIZE)[1]
    with open("cut", "wb") as file, open("lines", "rb") as source:
        other = subprocess.PIPE
        out, err = (other, file) if err_is_cut else (file, other)
        resource.setrlimit(resource.RLIMIT_FSIZE, (room, hard))
        try:
            child = subprocess.Popen([program.path, *words], stdin=source, stdout=out, stderr=err, restore_signals=False)
        finally:
            resource.setrlimit(resource.RLIMIT_FSIZE, (hard, hard))
        both_outputs = child.communicate(timeout=SECONDS)
    return child.returncode, read("cut"), both_outputs[0 if err_is_cut else 1]


TOO_LARGE = "hwdb: cannot write standard output: File too large\n"


def cut_short(what, words, want, status=1, lines=b"", before="", rooms=None):
    """An output that fails after so many bytes has taken just these, whatever the number; one that takes all has it."""
    want = encoded(want)
    for room in range(len(want)) if rooms is None else rooms:
        judge((what, room), cut(words, room, lines=encoded(lines)), (status, want[:room], encoded(before + TOO_LARGE)))
    seen = run(*words, given=lines)
    judge((what, "all"), seen[1:], (want, encoded(before)))
