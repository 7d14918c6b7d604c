"""An archive of mails in an index: what a text finds with a page of hits, counts by day, and the order of dates.

The index has the fields that `tools/from-mbox` gives mails. The threads of the page share it with the one that adds
mails. Of a program that ended another one is started with the next question.
"""
from __future__ import annotations

import os
import threading
import time
from collections.abc import Callable, Generator, Iterator
from typing import NamedTuple, TypeVar

import lafkundi
from lafkundi import All, Hit, Index, Query, Term, date, facet, text

# Words of any script, found without case and accents.
WORDS = "plain18"
SCHEMA = [
    text("id", stored=True, tokenizer="raw"), text("from", stored=True, tokenizer="raw"),
    text("to", stored=True, tokenizer="raw"), text("people", stored=True, tokenizer=WORDS),
    text("subject", stored=True, tokenizer=WORDS), text("body", stored=True, tokenizer=WORDS),
    facet("day", stored=True), date("sent", stored=True),
]
FIRST_YEAR = 1970
STEPS_OF_A_DAY = 3
A_PAGE = 10
MOST_PAGES = 100
# So many counts are asked at once.
AT_ONCE = 6
Answer = TypeVar("Answer")


class Step(NamedTuple):
    """A year, a month or a day, with how many mails it has."""

    path: str
    total: int

    @property
    def name(self) -> str:
        return self.path[1:].replace("/", "-")


class Found(NamedTuple):
    """A page of what was found."""

    hits: list[Hit]
    total: int
    steps: list[Step]
    milliseconds: float

    @property
    def pages(self) -> int:
        return min(MOST_PAGES, -(-self.total // A_PAGE))


def steps_below(path: str) -> list[Step]:
    """The years, the months of a year or the days of a month, the last first."""
    ends = ((FIRST_YEAR, time.gmtime().tm_year + 1), (1, 12), (1, 31), (1, 0))
    first, last = ends[path.count("/")]
    return [Step(f"{path}/{step:02}", 0) for step in range(last, first - 1, -1)]


class Archive:
    """The index of an archive, made where it is absent."""

    def __init__(self, path: str | os.PathLike[str], program: str | None = None) -> None:
        self.path, self.program = path, program
        self._lock = threading.Lock()
        self._index: Index | None = None

    def index(self) -> Index:
        """The index; after its program has ended, by another one."""
        with self._lock:
            if self._index is None:
                self._index = lafkundi.open(self.path, schema=SCHEMA, program=self.program)
            return self._index

    def ask(self, call: Callable[[Index], Answer]) -> Answer:
        """What a call of the index answers; where its program ends, the next call has another one."""
        index = self.index()
        try:
            return call(index)
        except (lafkundi.Died, lafkundi.NotAReply):
            with self._lock:
                if self._index is index:
                    self._index = None
            raise

    def close(self) -> None:
        with self._lock:
            if self._index is not None:
                self._index.close()

    def mail(self, identifier: str, text: str) -> tuple[Hit | None, set[str]]:
        """A mail, and those of its words that a text finds, as far as its passages show them."""
        return self.ask(lambda index: mail_of(index, identifier, text))

    def found(self, text: str, day: str, order: str, page: int) -> Found:
        """A page of the mails that a text finds, in a year, a month or a day if one is asked for."""
        return self.ask(lambda index: Search(index, text, day).found(order, page))


def mail_of(index: Index, identifier: str, text: str) -> tuple[Hit | None, set[str]]:
    hits = index.search(Term("id", identifier), 1)
    if not hits or not text.strip() or '"' in identifier:
        return (hits[0] if hits else None), set()
    try:
        shown = index.ask(f'({text}) id:"{identifier}"', 1).hits
    except lafkundi.NotRead:
        shown = []
    passages = [passage for hit in shown for field, passage in hit.passages.items() if field in ("subject", "body")]
    return hits[0], {piece for passage in passages for piece, is_word in passage.pieces() if is_word}


class Search:
    """A search in an index by a text, or of all mails where there is none, in a year, a month or a day, or in all."""

    def __init__(self, index: Index, text: str, day: str) -> None:
        self.index, self.text, self.day = index, text.strip(), day
        self.side: list[Step] = []

    def of(self, day: str) -> Query | str:
        """What finds the mails of a year, a month or a day, or of all."""
        if self.text:
            return f"({self.text}) day:{day}" if day else self.text
        return Term("day", day) if day else All()

    def of_no_day(self) -> Query | str:
        return f"({self.text}) -day:/" if self.text else All() & ~Term("day", "/")

    def hits(self, asked: Query | str, k: int, start: int = 0) -> list[Hit]:
        if isinstance(asked, str):
            return self.index.ask(asked, k, start=start).hits
        return self.index.search(asked, start + k)[start:]

    def steps(self, day: str, newest: bool) -> Iterator[Step]:
        """What is below a year or a month, each with its mails; those without one are left out."""
        if day == self.day:
            return iter(self.side if newest else self.side[::-1])
        return self.counted(day, newest)

    def counted(self, day: str, newest: bool) -> Iterator[Step]:
        """Counts what is below a year or a month, some of it at a time, as far as it is wanted.

        What has no mail at all is left out before the text is asked, since a count of a label takes no time."""
        there = self.with_mails(steps_below(day), lambda path: Term("day", path))
        for first in range(0, len(there), AT_ONCE):
            yield from self.with_mails((there if newest else there[::-1])[first:first + AT_ONCE], self.of)

    def with_mails(self, steps: list[Step], asked: Callable[[str], Query | str]) -> list[Step]:
        counts = self.index.counts(asked(step.path) for step in steps)
        return [Step(step.path, count) for step, count in zip(steps, counts, strict=True) if count]

    def found(self, order: str, page: int) -> Found:
        """A page of hits. Where no text is asked, all mails are equally good, and the newest come first."""
        began = time.monotonic()
        # The text by itself comes first, so that one that isn't read is told as it was written.
        total = self.index.count(self.of(""))
        total = self.index.count(self.of(self.day)) if self.day else total
        self.side = list(self.counted(self.day, True))
        first, is_best = (page - 1) * A_PAGE, order == "score" and self.text
        hits = self.hits(self.of(self.day), A_PAGE, first) if is_best else self.by_date(first, total, order != "oldest")
        return Found(hits, total, self.side, (time.monotonic() - began) * 1000)

    def by_date(self, first: int, total: int, newest: bool) -> list[Hit]:
        """Hits by date. Days before the first of them are counted alone, and mails without a date come last."""
        found: list[Hit] = []
        for step, skipped in self.days(self.day, first, newest):
            those = self.hits(self.of(step.path), step.total)
            those.sort(key=lambda hit: str(hit.first("sent", "")), reverse=newest)
            found += those[skipped:]
            if len(found) >= A_PAGE:
                break
        if len(found) < A_PAGE and not self.day:
            dated = total - self.index.count(self.of_no_day())
            found += self.hits(self.of_no_day(), A_PAGE, max(0, first + len(found) - dated))
        return found[:A_PAGE]

    def days(self, path: str, skip: int, newest: bool) -> Generator[tuple[Step, int], None, int]:
        """The days from a hit on, each with how many of its mails stand before that hit."""
        if path.count("/") == STEPS_OF_A_DAY:
            yield Step(path, self.index.count(self.of(path))), skip
            return 0
        for step in self.steps(path, newest):
            if step.total <= skip:
                skip -= step.total
            elif step.path.count("/") < STEPS_OF_A_DAY:
                skip = yield from self.days(step.path, skip, newest)
            else:
                yield step, skip
                skip = 0
        return skip
