"""Reads what a program says of itself by `--help`: commands, arguments and options, and the texts below them."""
import re
import subprocess
import sys
import typing

LISTS = ("Commands:", "Arguments:", "Options:")
ENTRY = re.compile(r"\s*(\S.*?)(?:\s{2,}(.*))?")
CHOICES = re.compile(r"\[possible values: ([^]]*)\]")


class Entry(typing.NamedTuple):
    """A line of a list: a form, as `--from <N>`, `[LINES]...` or `create`, and what is said of it."""

    form: str
    text: str

    def names(self):
        """The names of an option, as `-h` and `--help`."""
        return re.findall(r"(?<!\S)-[\w-]+", self.form)

    def has_value(self):
        return "<" in self.form

    def repeats(self):
        return self.form.endswith("...")

    def choices(self):
        """The values that are possible, where these are told."""
        found = CHOICES.search(self.text)
        return found[1].split(", ") if found else []

    def is_file(self):
        """Whether a file is named here, which is said by that word."""
        return bool(re.search(r"\bfiles?\b", self.text, re.IGNORECASE))


class Help(typing.NamedTuple):
    """What a program says of itself, or of one of its commands. A text is a list of lines."""

    about: str
    usage: str
    commands: list
    arguments: list
    options: list
    texts: list

    def values(self):
        """The options that a value stands behind."""
        return [option for option in self.options if option.has_value()]


def entries(lines):
    return [Entry(form, text or "") for form, text in (ENTRY.fullmatch(line).groups() for line in lines)]


def read_help(words):
    """The help that a program prints with these words before `--help`."""
    said = subprocess.run([*words, "--help"], stdin=subprocess.DEVNULL, capture_output=True, text=True, check=False)
    if said.returncode or not said.stdout:
        sys.exit(f"{' '.join(words)} --help: no help: status {said.returncode}: {said.stderr.strip()}")
    about, usage, *blocks = (block.split("\n") for block in said.stdout.rstrip("\n").split("\n\n"))
    lists = {block[0]: entries(block[1:]) for block in blocks if block[0] in LISTS}
    texts = [block for block in blocks if block[0] not in LISTS]
    return Help(" ".join(about), usage[0].removeprefix("Usage: "), *(lists.get(name, []) for name in LISTS), texts)


def read_helps(program):
    """The help of a program, and that of each of its commands by its name; `help` has none of its own."""
    top = read_help([program])
    return top, {form: read_help([program, form]) for form, _ in top.commands if form != "help"}
