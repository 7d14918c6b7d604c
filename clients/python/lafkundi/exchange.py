"""Lines that were sent and wait for their replies, in their order. Nothing here reads or writes."""
from __future__ import annotations

import collections
import dataclasses
import json
from typing import Any

from . import refusals
from .errors import Acknowledged, Died, NotAReply, NotRead, Refusal

OK = b'{"ok":true}\n'
# As many replies as are looked at in one step.
MANY = 4096
OKS = OK * MANY


def refusal(reply: dict[str, Any], op: str) -> Refusal:
    """The exception of a refusal, by its name."""
    name = str(reply["error"])
    if name == "NotRead":
        return NotRead(name, op, reply.get("at", 0), reply.get("cure", ""))
    kind = getattr(refusals, name, Refusal)
    return kind(name, op) if isinstance(kind, type) and issubclass(kind, Refusal) else Refusal(name, op)


class Waiting:
    """The lines of one call: how many of them aren't answered, and what the others were answered.

    Of a request the reply is kept; of many adds alone the refusals, each with the number of its document."""

    __slots__ = ("op", "left", "next", "reply", "refused")

    def __init__(self, op: str, count: int = 1, first: int = 0) -> None:
        self.op, self.left, self.next = op, count, first
        self.reply: Any = None
        self.refused: list[Refusal] = []

    def pass_ok(self, count: int) -> None:
        self.left -= count
        self.next += count

    def take(self, reply: Any) -> None:
        """Takes the reply to the next of the lines."""
        if "error" in reply:
            refused = refusal(reply, self.op)
            refused.number = self.next
            self.refused.append(refused)
        self.reply = reply
        self.pass_ok(1)

    def finish(self) -> None:
        """Called once all is answered."""

    def answer(self) -> Any:
        """The reply to a single request; its refusal is raised."""
        if self.refused:
            self.refused[0].number = None
            raise self.refused[0]
        return self.reply


class Exchange:
    """What was sent and isn't answered yet, and what was acknowledged."""

    def __init__(self) -> None:
        self.waiting: collections.deque[Waiting] = collections.deque()
        self.in_flight = 0
        self.acknowledged = Acknowledged()
        self._part: list[bytes] = []

    def send(self, waiting: Waiting) -> None:
        """Notes that the lines of a call are sent."""
        self.waiting.append(waiting)
        self.in_flight += waiting.left

    def take(self, data: bytes) -> None:
        """Takes what the program wrote: whole lines are replies, a part of one is kept for later."""
        self._part.append(data)
        if b"\n" not in data:
            return
        data = b"".join(self._part)
        at, end = 0, data.rfind(b"\n") + 1
        self._part = [data[end:]] if end < len(data) else []
        while at < end:
            at += self._take_oks(data, at, end) or self._take_line(data, at)

    def _take_oks(self, data: bytes, at: int, end: int) -> int:
        """Takes replies to adds as long as they are ok; how many bytes they are."""
        first = self._first(data, at)
        count = min(first.left, (end - at) // len(OK), MANY)
        if first.op != "add" or count < 2 or not data.startswith(OKS[: count * len(OK)], at):
            return 0
        first.pass_ok(count)
        self._note(first, count, count)
        return count * len(OK)

    def _take_line(self, data: bytes, at: int) -> int:
        """Takes the reply to one line; how many bytes it is."""
        end = data.index(b"\n", at) + 1
        first = self._first(data, at)
        refused = len(first.refused)
        first.take(value_of(data[at:end]))
        self._note(first, 1, 1 if len(first.refused) == refused else 0)
        return end - at

    def _first(self, data: bytes, at: int) -> Waiting:
        if not self.waiting:
            raise NotAReply(f"the program wrote a line that no request waits for: {data[at:at + 200]!r}")
        return self.waiting[0]

    def _note(self, first: Waiting, lines: int, oks: int) -> None:
        """Notes so many replies, some of them ok, and lets a call go that is answered."""
        self.in_flight -= lines
        self.acknowledged = after(self.acknowledged, first.op, oks)
        if not first.left:
            self.waiting.popleft()
            first.finish()

    def died(self, status: int, last_words: str) -> Died:
        """What is told of a program that ended."""
        unanswered: dict[str, int] = {}
        for waiting in self.waiting:
            unanswered[waiting.op] = unanswered.get(waiting.op, 0) + waiting.left
        return Died(status, last_words, self.acknowledged, unanswered)


def value_of(line: bytes) -> Any:
    """The value of a reply's line."""
    try:
        value = json.loads(line)
    except ValueError:
        value = None
    if not isinstance(value, dict):
        raise NotAReply(f"the program wrote what is no reply: {line[:200]!r}")
    return value


def after(before: Acknowledged, op: str, count: int) -> Acknowledged:
    """What is acknowledged after so many more replies of ok."""
    adds, deletions = before.waiting_adds, before.waiting_deletions
    more: dict[str, dict[str, int]] = {
        "add": {"waiting_adds": adds + count},
        "delete": {"waiting_deletions": deletions + count},
        "merge": {"merges": before.merges + count},
        "commit": {"commits": before.commits + count, "added": before.added + adds,
                   "deletions": before.deletions + deletions, "waiting_adds": 0, "waiting_deletions": 0},
        "open": {"waiting_adds": 0, "waiting_deletions": 0},
    }
    return dataclasses.replace(before, **more.get(op, {})) if count else before
