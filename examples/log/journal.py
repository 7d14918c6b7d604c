"""Lines of a journal in an index: they go in by batches, older days are deleted, and the file is written anew by night.

What `journalctl -o json` prints is a line each: an object with a time, a message, a unit and a level.
"""
from __future__ import annotations

import datetime
import json
import os
import re
import select
import time
from collections.abc import Callable, Iterator
from typing import Any

import lafkundi
from lafkundi import All, Bool, Const, Hit, Index, Query, Term, date, facet, number, text

# The label of a line is its hour, by which the lines of a day, a month and a year are found too.
SCHEMA = [
    date("time", stored=True), facet("hour", stored=True), text("message", stored=True),
    text("unit", stored=True, tokenizer="raw"), text("host", stored=True, tokenizer="raw"),
    number("level", stored=True), text("cursor", stored=True, tokenizer="raw"),
]
UTC = datetime.timezone.utc
STEPS_OF_AN_HOUR = 4
# As many documents make a segment before a commit does; and after so many commits their segments are merged.
A_SEGMENT = 65536
MANY_SEGMENTS = 64
READ = 1 << 16
WORD = re.compile(r"[0-9A-Za-z\u0080-\U0010ffff]+")
FIRST_YEAR = 2000


def message_of(value: Any) -> str:
    """A message as text; journalctl prints one that is no UTF-8 as a list of bytes, and a long one as null."""
    if isinstance(value, list):
        return bytes(byte for byte in value if isinstance(byte, int) and 0 <= byte < 256).decode("utf-8", "replace")
    return value.encode("utf-8", "replace").decode() if isinstance(value, str) else ""


def document(line: bytes) -> dict[str, Any] | None:
    """The fields of a line, or None of what is no line of a journal."""
    try:
        entry = json.loads(line)
        moment = datetime.datetime.fromtimestamp(int(entry["__REALTIME_TIMESTAMP"]) / 10**6, UTC)
    except (ValueError, LookupError, TypeError, OverflowError, OSError):
        return None
    level = str(entry.get("PRIORITY", ""))
    doc = {"time": moment, "hour": f"{moment:/%Y/%m/%d/%H}", "message": message_of(entry.get("MESSAGE")),
           "unit": message_of(entry.get("_SYSTEMD_UNIT") or entry.get("SYSLOG_IDENTIFIER")),
           "host": message_of(entry.get("_HOSTNAME")), "cursor": message_of(entry.get("__CURSOR"))}
    return doc | ({"level": int(level)} if level.isascii() and level.isdigit() else {})


def batches(file: int, most: int, seconds: float) -> Iterator[list[bytes]]:
    """Lines that are read, so many at a time at most, none kept back for longer than so many seconds."""
    part, lines, since = b"", list[bytes](), time.monotonic()
    while True:
        left = max(0.0, since + seconds - time.monotonic()) if lines else None
        data = os.read(file, READ) if select.select([file], [], [], left)[0] else None
        if data:
            since = since if lines else time.monotonic()
            *whole, part = (part + data).split(b"\n")
            lines += whole
        ended = data == b""
        if ended and part:
            lines.append(part)
        while lines and (ended or len(lines) >= most or time.monotonic() >= since + seconds):
            yield lines[:most]
            lines, since = lines[most:], time.monotonic()
        if ended:
            return


def steps(index: Index, query: Query, path: str) -> list[tuple[str, int]]:
    """The years, months, days or hours below a label that a query finds lines of, the last first, with how many."""
    this_year = time.gmtime().tm_year
    first, end = ((FIRST_YEAR, this_year + 2), (1, 13), (1, 32), (0, 24))[path.count("/")]
    paths = [f"{path}/{step:02}" for step in range(end - 1, first - 1, -1)]
    counts = index.counts(query & Term("hour", path) for path in paths)
    return [(path, count) for path, count in zip(paths, counts, strict=True) if count]


def labels(index: Index, depth: int, query: Query = All(), path: str = "") -> Iterator[tuple[str, int]]:
    """The days, or the hours, that a query finds lines of, the last first."""
    for step, count in steps(index, query, path):
        if step.count("/") == depth:
            yield step, count
        else:
            yield from labels(index, depth, query, step)


def last_lines(index: Index, query: Query, most: int) -> list[Hit]:
    """The last lines that a query finds, in the order in which they came."""
    found: list[Hit] = []
    for path, count in labels(index, STEPS_OF_AN_HOUR, query):
        found = index.search(Const(query & Term("hour", path), 1), count) + found
        if len(found) >= most:
            break
    return found[len(found) - min(most, len(found)):]


def last_cursor(index: Index) -> str:
    """The cursor of the last line, behind which journalctl goes on."""
    return "".join(hit.first("cursor", "") for hit in last_lines(index, All(), 1))


def query_of(words: list[str], unit: str, level: int | None, when: str) -> Query:
    """The lines with all words, of a unit, of a level or a more urgent one, of a day as 2026-12-01 or 2026-12."""
    asked = [Term("message", word.lower()) for each in words for word in WORD.findall(each)]
    query: Query = Bool(must=[All(), *asked])
    for also in (unit and Term("unit", unit), when and Term("hour", f"/{when}".replace("-", "/"))):
        query = query & also if also else query
    return query if level is None else query & Bool(should=[Term("level", each) for each in range(level + 1)])


class Keeper:
    """An index that takes lines in for so many days, and is written anew with each new day."""

    def __init__(self, path: str, days: int, program: str | None, tell: Callable[[str], None]) -> None:
        self.path, self.days, self.program, self.tell = path, days, program, tell
        self.anew = f"{path}.anew"
        self.index = lafkundi.open(path, schema=SCHEMA, program=program)
        self.oldest = ""
        self.merge_all()

    def take(self, lines: list[bytes]) -> None:
        """Adds lines and commits them; what is no line of a journal, or is too old, is told and left out."""
        documents = [doc for doc in map(document, lines) if doc]
        young = [doc for doc in documents if doc["hour"] >= self.oldest]
        self.index.add_many(young, refused=lambda refused: self.tell(str(refused)))
        self.index.commit()
        self.merge_small(len(young))
        left_out = {"no lines of a journal": len(lines) - len(documents), "too old": len(documents) - len(young)}
        for what, count in left_out.items():
            if count:
                self.tell(f"left out, {what}: {count}")

    def merge_all(self) -> None:
        """Makes one segment of all. It isn't told how many there are, so that only then they can be counted."""
        self.index.merge_all()
        self.merged, self.small = min(1, self.index.count(All())), 0

    def merge_small(self, added: int) -> None:
        """Merges the segments of the last commits, each of which has left some, as soon as these are many."""
        self.small += -(-added // A_SEGMENT)
        if self.small >= MANY_SEGMENTS:
            self.index.merge(self.merged, self.merged + self.small)
            self.merged, self.small = self.merged + 1, 0

    def begin_day(self, day: datetime.date) -> None:
        """With each new day, deletes the days that are too old, and writes the file anew."""
        oldest = f"{day - datetime.timedelta(days=self.days - 1):/%Y/%m/%d}"
        if oldest == self.oldest:
            return
        self.oldest = oldest
        gone = [(path, count) for path, count in labels(self.index, STEPS_OF_AN_HOUR - 1) if path < oldest]
        for path, _ in gone:
            self.index.delete(Term("hour", path))
        if gone:
            self.index.commit()
            self.tell(f"{sum(count for _, count in gone)} lines of {len(gone)} days are deleted")
            self.compact()

    def compact(self) -> None:
        """Writes the lines into a new file, hour by hour, which then takes the place of the old one."""
        if os.path.exists(self.anew):
            os.remove(self.anew)
        before = os.path.getsize(self.path)
        with lafkundi.create(self.anew, SCHEMA, program=self.program) as new:
            for path, count in reversed([*labels(self.index, STEPS_OF_AN_HOUR)]):
                new.add_many(hit.doc for hit in self.index.search(Term("hour", path), count))
            new.commit()
            self.merged, self.small = -(-new.count(All()) // A_SEGMENT), 0
        self.index.close()
        os.replace(self.anew, self.path)
        self.index = lafkundi.open(self.path, program=self.program)
        self.tell(f"written anew: {before} bytes, now {os.path.getsize(self.path)}")
