#!/usr/bin/env python3
"""Prints the module `lafkundi.refusals` of the tables in docs/REQUESTS.md.

usage: clients/python/tests/refusals_of_page.py > clients/python/lafkundi/refusals.py

A test compares the module with what this prints.
"""
import json
import os
import re
import sys
import textwrap

ROOT = os.path.dirname(os.path.dirname(os.path.dirname(os.path.dirname(os.path.realpath(__file__)))))
HEAD = '''"""One exception for each name by which a line is refused, with what docs/REQUESTS.md says of it.

Printed by tests/refusals_of_page.py of the tables in docs/REQUESTS.md: print it anew where these change. Two of the
names, TypeError and OverflowError, are those of others in Python, so use them as `lafkundi.refusals.TypeError`. The
refusal of a text, NotRead, brings its own cure.
"""
from .errors import NotRead as NotRead, Refusal, Row
'''
# What is met in any request stands for no request of its own.
ANY = "Of memory, limits and devices"


def sections(page):
    """The sections of refusals, each with its lines."""
    part = page.partition("\n## Refusals\n")[2].partition("\n## ")[0]
    for section in part.split("\n### ")[1:]:
        heading, _, text = section.partition("\n")
        yield heading, text.splitlines()


def cells_of(line):
    return [cell.strip() for cell in line.strip("|").split("|")]


def rows():
    """Each row: its name, the requests that it is for, its cause, what stands then, and its cure."""
    with open(f"{ROOT}/docs/REQUESTS.md", encoding="utf-8") as file:
        page = file.read()
    for heading, lines in sections(page):
        named = ""
        for cells in (cells_of(line) for line in lines if line.startswith("| ")):
            if cells[0] == "refusal":
                continue
            named = named if cells[0] == "the same" else cells[0]
            name, *ops = re.findall(r"`(\w+)`", named)
            ops = ops or ([] if heading == ANY else re.findall(r"`(\w+)`", heading))
            cause, cure, stands = cells[1], cells[-1], cells[2] if len(cells) == 4 else ""
            yield name, " ".join(ops), cause, stands, cure


def quoted(text):
    """A text as Python, over several lines where it is long."""
    lines = textwrap.wrap(text, 104, drop_whitespace=False, break_on_hyphens=False) or [""]
    return "\n            ".join(json.dumps(line, ensure_ascii=False) for line in lines)


def printed_row(ops, cause, stands, cure):
    cells = [quoted(cell) for cell in (ops, cause, cure, *([stands] if stands else []))]
    line = f"Row({', '.join(cells)})"
    if len(line) < 104 and "\n" not in line:
        return f"        {line},"
    return "        Row(" + ",\n            ".join(cells) + "),"


def printed():
    classes = {}
    for name, *row in (row for row in rows() if row[0] != "NotRead"):
        classes.setdefault(name, []).append(row)
    texts = [HEAD]
    for name, those in classes.items():
        body = "\n".join(printed_row(*row) for row in those)
        about = textwrap.shorten(those[0][1].replace("\\", "\\\\"), 100, placeholder=" ..")
        texts.append(f'\nclass {name}(Refusal):\n    """{about}."""\n\n    rows = (\n{body}\n    )\n')
    return "\n".join(texts)


if __name__ == "__main__":
    if sys.argv[1:]:
        sys.exit(__doc__.split("\n\n")[1])
    print(printed(), end="")
