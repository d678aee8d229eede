"""What the scripts that try wrong sources share: copies of the crates, and checks of one crate over those below it, built or as sources."""
import os
import shutil
import subprocess

TOP = os.path.dirname(os.path.dirname(os.path.dirname(os.path.abspath(__file__))))


def lines_of(crate):
    """The lines of crates.txt of a crate and of the crates of this repository that it stands on, by their names."""
    with open(os.path.join(TOP, "crates.txt"), encoding="utf-8") as file:
        lines = {line.split(":")[0].split()[0]: line for line in file if ":" in line}
    if crate not in lines:
        raise SystemExit(f"no {crate} in crates.txt")
    below, open_ = set(), [crate]
    while open_:
        name = open_.pop()
        if name not in below:
            below.add(name)
            open_ += [word for word in lines[name].split(":")[1].split() if word in lines]
    return {name: line for name, line in lines.items() if name in below}


def copied(lines, scratch, with_built=False):
    """Copies these crates into a folder, with a crates.txt of these lines."""
    for name in lines:
        place = os.path.join(TOP, "crates", name)
        passed_over = None if with_built else (lambda folder, names, place=place: {"out"} if folder == place else ())
        shutil.copytree(place, os.path.join(scratch, "crates", name), symlinks=True, ignore=passed_over)
    shutil.copy(os.path.join(TOP, "HANDLES"), scratch)
    with open(os.path.join(scratch, "crates.txt"), "w", encoding="utf-8") as file:
        file.write("".join(lines.values()))
    subprocess.run(["git", "init", "-q", scratch], check=True)


def library_of(name):
    """Where `rt ci` and `rt check` put the library of a crate of this repository."""
    return os.path.join(TOP, "crates", name, "out", "rlib", name + ".rlib")


def changed_at(path):
    """When a file was changed last, or came to its place; of a folder, the last of all that is in it."""
    found = [path] if os.path.exists(path) else []
    for place, folders, names in os.walk(path):
        found += [os.path.join(place, name) for name in folders + names]
    return max((max(os.lstat(it).st_mtime, os.lstat(it).st_ctime) for it in found), default=0)


def built_of(lines):
    """The crates of these lines that have a library which is later than their sources, and than those of all below them."""
    table = changed_at(os.path.join(TOP, "crates.txt"))
    changed = {name: max(changed_at(os.path.join(TOP, "crates", name, part)) for part in ("src", "specs", "proofs")) for name in lines}
    built, ordered = set(), ordered_of(lines)
    for name in ordered:
        below = [it for it in lines[name].split(":")[1].split() if it in lines]
        library = library_of(name)
        if built.issuperset(below) and os.path.isfile(library + "/format"):
            changed[name] = max([changed[name], table, *(changed[it] for it in below)])
            if os.stat(library).st_mtime > changed[name]:
                built.add(name)
    return built


def ordered_of(lines):
    """These crates, each after those that it stands on."""
    ordered = []

    def visit(name):
        if name not in ordered:
            for below in lines[name].split(":")[1].split():
                if below in lines:
                    visit(below)
            ordered.append(name)

    for name in lines:
        visit(name)
    return ordered


def over_sources(lines, crate, functions, built=()):
    """The words that check functions of a crate, in its folder, over the sources of the crates below it, which aren't proved; of those
    that are `built`, over their libraries."""
    kit = os.path.dirname(subprocess.run(["rt", "doc"], check=True, capture_output=True, text=True).stdout.strip())
    stands_on = {name: line.split(":")[1].split() for name, line in lines.items()}
    of_kit = sorted({"core", "std"}.union(*stands_on.values()) - set(stands_on))
    words = [f"{kit}/bin/rattle", "check", "--crate-name", crate, "src/lib.rt", "-L", f"dependency={kit}/rlibs"]
    for name in of_kit:
        words += ["--extern", f"{name}={kit}/rlibs/{name}.rlib"]
    for name in [name for name in ordered_of(lines) if name != crate]:
        if name in built:
            library = library_of(name)
            words += ["--extern", f"{name}={library}", "-L", f"dependency={os.path.dirname(library)}"]
            continue
        below = ",".join(sorted({"core", "std", *stands_on[name]}))
        words += ["--lib", f"{name}:{below}={os.path.join('..', name, 'src', 'lib.rt')}"]
    words += ["--antt-project", f"{kit}/rattle/logic/antt-project.json", "--logic-built", f"{kit}/logic_built"]
    words += ["--links", f"{crate}=", "--jobs", "1"]
    for name in functions:
        words += ["--only", name]
    return words
