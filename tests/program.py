"""What the scripts in Python share that try the program: its runs, the files that it is given, and a folder for them."""
import os
import shutil
import subprocess
import sys
import tempfile

from judge import finish

# A run that takes longer hangs.
SECONDS = 60

# The program that is tried. A script is called with its path.
path = ""


def encoded(text):
    return text.encode("utf-8", "surrogateescape") if isinstance(text, str) else text


def run(*words, given=b"", before=(), **more):
    """The status, standard output and standard error of a run into pipes, as bytes; no status if it takes too long. `given` is standard
    input, and `before` are the words of a command that runs the program."""
    try:
        done = subprocess.run([*before, path, *words], input=encoded(given), capture_output=True, timeout=SECONDS, check=False, **more)
    except subprocess.TimeoutExpired:
        return None, b"", b"no end in %d seconds" % SECONDS
    return done.returncode, done.stdout, done.stderr


def run_text(*words, **how):
    """The same with outputs as texts. A byte that UTF-8 has no character for is kept, as Python's names of files keep it."""
    status, out, err = run(*words, **how)
    return status, out.decode("utf-8", "surrogateescape"), err.decode("utf-8", "surrogateescape")


def run_line(line, **how):
    """The same with the words of a line, as somebody types it: the first is `hwdb`."""
    return run_text(*line.split()[1:], **how)


def another_user():
    """The words that run the program as a user who may not read all; None if this can't be."""
    if os.getuid():
        return ()
    words = ("setpriv", "--reuid", "65534", "--regid", "65534", "--clear-groups")
    os.chmod(".", 0o755)
    try:
        if run("--version", before=words)[0] == 0:
            return words
    except OSError:
        pass
    print("skipped: what may not be read (root may read all, and setpriv is not there)")
    return None


def command(*words, **more):
    """Any command, run to its end: what it ended with, and what it printed. Nothing is on its standard input but what is given."""
    return subprocess.run([word if isinstance(word, bytes) else str(word) for word in words], capture_output=True, check=False, **{"input": b"", **more})


def write(place, text):
    """Writes a file, and makes the folders that it is in."""
    os.makedirs(os.path.dirname(place) or ".", exist_ok=True)
    with open(place, "wb") as file:
        file.write(encoded(text))


def read(place):
    with open(place, "rb") as file:
        return file.read()


def tried(usage, *parts, folder=None):
    """What a script does: each part is run in a new folder, by the program that the words name. Returns the script's status."""
    global path
    if len(sys.argv) != 2 or sys.argv[1].startswith("-"):
        sys.exit(usage)
    path = os.path.realpath(sys.argv[1])
    scratch = tempfile.mkdtemp(dir=folder)
    os.chdir(scratch)
    try:
        for part in parts:
            part()
    finally:
        os.chdir("/")
        shutil.rmtree(scratch, ignore_errors=True)
    return finish()
