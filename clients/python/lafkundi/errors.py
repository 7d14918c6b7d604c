"""What goes wrong: a refusal of a line, a program that ended, a program that isn't there."""
from __future__ import annotations

import dataclasses
import signal
from typing import ClassVar, NamedTuple


class Error(Exception):
    """What this package raises about an index or its program."""


class NoProgram(Error):
    """No program that answers lines was found, or it can't be started."""


class NotAReply(Error):
    """The program wrote something that is no reply; it is ended then."""


class Row(NamedTuple):
    """A row of the tables of refusals in docs/REQUESTS.md."""

    ops: str
    cause: str
    cure: str
    stands: str = ""


class Refusal(Error):
    """A line was refused. The classes of `lafkundi.refusals` bear the names by which lines are refused.

    `name` is that name and `op` the request's. After `add_many`, `number` is that of the document, counted from 0, and
    `added` tells how many were added.
    """

    rows: ClassVar[tuple[Row, ...]] = ()

    def __init__(self, name: str, op: str) -> None:
        super().__init__(name, op)
        self.name, self.op = name, op
        self.number: int | None = None
        self.added: int | None = None

    def told(self) -> tuple[Row, ...]:
        """The rows of docs/REQUESTS.md for this request; all of the name where none is for it alone."""
        return tuple(row for row in self.rows if self.op in row.ops.split()) or self.rows

    @property
    def cure(self) -> str:
        """What docs/REQUESTS.md says to do."""
        return "; or: ".join(row.cure for row in self.told()) or "this client doesn't know the name: docs/REQUESTS.md"

    def __str__(self) -> str:
        where = "" if self.number is None else f", document {self.number}"
        rows = "; or: ".join(f"{row.cause}. Cure: {row.cure}" for row in self.told())
        stands = "; or: ".join(row.stands for row in self.told() if row.stands)
        return f"{self.name} ({self.op}{where}): {rows or self.cure}{stands and '. What stands: '}{stands}"


class NotRead(Refusal):
    """A text that a person writes isn't read. `at` is the byte where that is seen, and `cure` what to write instead."""

    def __init__(self, name: str, op: str, at: int = 0, cure: str = "") -> None:
        super().__init__(name, op)
        self.at, self.told_cure = at, cure

    @property
    def cure(self) -> str:
        return self.told_cure

    def __str__(self) -> str:
        return f"{self.name} ({self.op}), at byte {self.at}: {self.cure}"


@dataclasses.dataclass(frozen=True)
class Acknowledged:
    """What the program has answered with ok so far."""

    commits: int = 0
    added: int = 0
    deletions: int = 0
    waiting_adds: int = 0
    waiting_deletions: int = 0
    merges: int = 0

    def __str__(self) -> str:
        counts = {
            "commits": self.commits, "adds in them": self.added, "deletions in them": self.deletions,
            "merges": self.merges, "adds that waited for a commit": self.waiting_adds,
            "deletions that waited for a commit": self.waiting_deletions,
        }
        return ", ".join(f"{count} {name}" for name, count in counts.items() if count) or "nothing"


def ended_how(status: int) -> str:
    """An exit status in words."""
    if status >= 0:
        return f"with status {status}"
    try:
        return f"by {signal.Signals(-status).name}"
    except ValueError:
        return f"by signal {-status}"


# What docs/REQUESTS.md says of the status 1, behind the text that the program writes then.
CAUSES = {
    "device fault": "the file can't be opened, isn't a regular file or is used by another program, or memory ran out",
    "read fault": "its input failed",
    "write fault": "its output failed",
}


class Died(Error):
    """The program ended before it answered.

    `status` is its exit status (a signal's number is negative), `last_words` what it wrote to standard error at its
    end, `acknowledged` what it had answered with ok before, and `unanswered` how many lines of each request weren't
    answered. Of these a commit or a merge may have been done; what waited for a commit is lost.
    """

    def __init__(self, status: int, last_words: str, acknowledged: Acknowledged, unanswered: dict[str, int]) -> None:
        super().__init__(status, last_words, acknowledged, unanswered)
        self.status, self.last_words = status, last_words
        self.acknowledged, self.unanswered = acknowledged, unanswered

    def __str__(self) -> str:
        cause = next((f" ({text})" for words, text in CAUSES.items() if self.last_words.endswith(words)), "")
        words = f": {self.last_words}{cause}" if self.last_words else ""
        open_lines = ", ".join(f"{count} {op}" for op, count in self.unanswered.items()) or "nothing"
        return (f"the program ended {ended_how(self.status)}{words}. Acknowledged: {self.acknowledged}. "
                f"Not answered: {open_lines}")
