"""What scripts in Python fetch from Debian: packages and sources of a release, whatever this machine's own sources are."""
import glob
import importlib.util
import os
import subprocess
import sys


def run(words, folder):
    subprocess.run(words, cwd=folder, check=True, stdout=subprocess.DEVNULL, stderr=subprocess.DEVNULL)


def apt(folder, kind, release):
    """The words of an apt-get that knows Debian's packages of a release alone, of this kind. All that it writes is below the folder."""
    # Of its folder of lists `apt-get update` takes away all that is none.
    for name in ("lists/partial", "cache/archives/partial"):
        os.makedirs(os.path.join(folder, name))
    sources = os.path.join(folder, "sources.list")
    with open(sources, "w") as out:
        out.write("%s [signed-by=/usr/share/keyrings/debian-archive-keyring.gpg] http://deb.debian.org/debian %s main\n" % (kind, release))
    words = ["apt-get", "-q"]
    for key, value in (("Dir::Etc::sourcelist", sources), ("Dir::Etc::sourceparts", "-"), ("Dir::State::lists", os.path.join(folder, "lists")), ("Dir::Cache", os.path.join(folder, "cache"))):
        words += ["-o", "%s=%s" % (key, value)]
    run(words + ["update"], folder)
    return words


def unpacked(words, folder, package):
    """The folder that the package is unpacked in."""
    run(words + ["download", package], folder)
    into = os.path.join(folder, "unpacked", package)
    os.makedirs(into)
    run(["dpkg-deb", "-x", glob.glob(os.path.join(folder, package + "_*.deb"))[0], into], folder)
    return into


def parse_hwdb(folder):
    """parse_hwdb.py out of systemd's source package."""
    run(apt(folder, "deb-src", "trixie") + ["source", "--download-only", "systemd"], folder)
    archive = glob.glob(os.path.join(folder, "systemd_*.orig.tar.*"))[0]
    run(["tar", "-xf", archive, "-C", folder, "--wildcards", "*/hwdb.d/parse_hwdb.py"], folder)
    return glob.glob(os.path.join(folder, "*", "hwdb.d", "parse_hwdb.py"))[0]


def with_module(folder, module):
    """Debian's package of a Python module for this Python, if there is none; nothing is said if it doesn't fit."""
    if importlib.util.find_spec(module) is not None:
        return
    os.makedirs(folder)
    with open("/etc/os-release") as file:
        release = dict(line.strip().split("=", 1) for line in file if "=" in line)["VERSION_CODENAME"]
    into = unpacked(apt(folder, "deb", release), folder, "python3-" + module)
    found = [os.path.join(into, "usr/lib/python3/dist-packages"), os.environ.get("PYTHONPATH", "")]
    os.environ["PYTHONPATH"] = os.pathsep.join(path for path in found if path)


def knows(module):
    """Whether Python finds the module."""
    return subprocess.run([sys.executable, "-c", "import " + module], stderr=subprocess.DEVNULL).returncode == 0
