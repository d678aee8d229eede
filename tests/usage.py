"""How the program is used, read from its help: commands with what they do, and each one's options and arguments."""
import re
import subprocess

OPTION = re.compile(r"^ +(?:(-\w), )?(--[\w-]+)(?: <([\w.]+)>)? {2,}(.*)$")
ARGUMENT = re.compile(r"^ +([<\[])(\w+)[>\]](\.\.\.)? {2,}\S")


def printed(program, *words):
    """What the program prints on standard output."""
    return subprocess.run([program, *words], stdin=subprocess.DEVNULL, capture_output=True, text=True, check=True).stdout


def section(text, name):
    """The lines of a help text below a heading."""
    return text.split(name + ":\n", 1)[1].split("\n\n")[0].splitlines() if name + ":\n" in text else []


class Usage:
    """Commands with what they do; options by command and long name, as (short, kind, help); arguments by command; and what
    the values of options are called. Of each argument also whether it may be given again and again (`places`), and whether
    it has to be given (`needed`). `hwdb` stands for the program without a command."""

    def __init__(self, program):
        self.program = program
        self.abouts, self.options, self.arguments, self.values = {}, {}, {}, {}
        self.places, self.needed = {}, {}
        self.add("hwdb", printed(program, "--help"))
        for line in section(printed(program, "--help"), "Commands"):
            name, about = line.split(maxsplit=1)
            self.add(name, printed(program, "help", name))
            if self.abouts[name] != about:
                raise ValueError(f"the help of {name} begins otherwise than the list of commands says")

    def add(self, command, text):
        self.abouts[command] = text.split("\n")[0]
        found = [ARGUMENT.match(line).groups() for line in section(text, "Arguments")]
        self.arguments[command] = [name for _, name, _ in found]
        # `help` takes the word of one command: none has commands of its own.
        self.places[command] = [(name, bool(again) and command != "help") for _, name, again in found]
        self.needed[command] = [opened == "<" for opened, _, _ in found]
        for line in section(text, "Options"):
            short, long, value, help_line = OPTION.match(line).groups()
            self.options[command, long] = (short or "", "value" if value else "flag", help_line)
            if value:
                self.values[long] = value

    def commands(self):
        return [name for name in self.abouts if name != "hwdb"]

    def long_names(self):
        """Each long name with its short one and kind, whatever the commands that have it."""
        return {long: found[:2] for (_, long), found in self.options.items()}
