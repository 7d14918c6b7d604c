"""Each request as its line, and what is made of its reply; both indexes are over this."""
from __future__ import annotations

import collections
import dataclasses
from collections.abc import Callable, Iterable
from typing import Any, Generic, NamedTuple, TypeVar

from .errors import Refusal
from .exchange import Waiting
from .lines import Document, line_of, line_of_add
from .queries import Query, Term, a_query

AnyWaiting = TypeVar("AnyWaiting", bound=Waiting)
Schema = Iterable[dict[str, Any]]
Settings = dict[str, Any]

# A batch of adds ends at so many lines or bytes, and so many lines may be in flight.
BATCH_LINES = 1024
BATCH_BYTES = 1 << 17
MOST_IN_FLIGHT = 4096
# A merge of all asks downwards from so many segments.
MOST_SEGMENTS = 1024


class Passage(tuple[str, ...]):
    """A passage in pieces, of which the second, the fourth and so on are words that are looked for."""

    __slots__ = ()

    def pieces(self) -> list[tuple[str, bool]]:
        """The pieces that have something, each with whether it is such a word."""
        return [(piece, number % 2 == 1) for number, piece in enumerate(self) if piece]

    def __str__(self) -> str:
        return "".join(f"[{piece}]" if is_word else piece for piece, is_word in self.pieces())


@dataclasses.dataclass(frozen=True, slots=True)
class Hit:
    """A document that was found: its score, and its stored values, for each field a list.

    A hit of `ask` has `passages` too: of each text with a word that is looked for the one that shows it best."""

    score: int
    doc: dict[str, list[Any]]
    passages: dict[str, Passage] = dataclasses.field(default_factory=dict)

    def first(self, field: str, otherwise: Any = None) -> Any:
        """The first stored value of a field."""
        values = self.doc.get(field)
        return values[0] if values else otherwise


class Answer(NamedTuple):
    """What a text finds: how many documents match, and the best of them."""

    matches: int
    hits: list[Hit]


class Standing(NamedTuple):
    """What stands in an index: its committed documents, but for those that are deleted, and its segments."""

    documents: int
    segments: int


class Request(NamedTuple):
    """A request by its name, with its line."""

    op: str
    line: bytes


def request(op: str, **keys: Any) -> Request:
    return Request(op, line_of({"op": op, **keys}))


def create(schema: Schema, settings: Settings | None) -> Request:
    keys = {} if settings is None else {"settings": settings}
    return request("create", schema=list(schema), **keys)


def add(document: Document) -> Request:
    return Request("add", line_of_add(document))


def delete(term: Term) -> Request:
    if not isinstance(term, Term):
        raise TypeError(f"{term!r} is no term: a deletion takes Term(field, value)")
    return request("delete", term=term.term())


def search(query: Query, k: int) -> Request:
    return request("search", query=a_query(query).to_json(), k=k)


def count(query: Query | str) -> Request:
    """The request of a count; of a text it is one for no hit."""
    return ask(query, 0) if isinstance(query, str) else request("count", query=a_query(query).to_json())


def merge(first: int, end: int) -> Request:
    return Request("merge", line_of({"op": "merge", "from": first, "to": end}))


def ask(text: str, k: int, start: int = 0, flat: bool = False, best_field: bool = False) -> Request:
    """The request of a text. What isn't asked for otherwise is left out of the line."""
    keys = {"from": start, "flat": flat, "best_field": best_field}
    return request("ask", text=text, k=k, **{key: value for key, value in keys.items() if value})


def hits_of(reply: Any) -> list[Hit]:
    return [Hit(hit["score"], hit["doc"]) for hit in reply["hits"]]


def answer_of(reply: Any) -> Answer:
    """The reply to a text, with the passages of its hits."""
    hits = [Hit(hit["score"], hit["doc"], {field: Passage(those) for field, those in hit["passages"].items()})
            for hit in reply["hits"]]
    return Answer(reply["count"], hits)


def standing_of(reply: Any) -> Standing:
    return Standing(reply["docs"], reply["segments"])


class Batch(NamedTuple):
    """The lines of some adds: the number of the first document, how many there are, and the bytes."""

    first: int
    documents: int
    data: bytes


class Batches:
    """Lines of adds that are gathered into batches."""

    def __init__(self) -> None:
        self.lines: list[bytes] = []
        self.bytes = self.first = 0

    def put(self, document: Document) -> Batch | None:
        """Takes a document; a batch, where it is full."""
        line = line_of_add(document)
        self.lines.append(line)
        self.bytes += len(line)
        return self.rest() if self.bytes >= BATCH_BYTES or len(self.lines) == BATCH_LINES else None

    def rest(self) -> Batch | None:
        """A batch of what was gathered, where that is something."""
        if not self.lines:
            return None
        batch = Batch(self.first, len(self.lines), b"".join(self.lines))
        self.lines, self.bytes, self.first = [], 0, batch.first + batch.documents
        return batch


class Added(Generic[AnyWaiting]):
    """What became of many adds so far: how many were sent, and which were refused."""

    def __init__(self, refused: Callable[[Refusal], object] | None) -> None:
        self.tell, self.refused = refused, 0
        self.batches: collections.deque[AnyWaiting] = collections.deque()
        self.sent = 0
        self.first_refusal: Refusal | None = None

    def send(self, waiting: AnyWaiting) -> None:
        self.batches.append(waiting)
        self.sent += waiting.left

    def look(self) -> bool:
        """Tells the refusals of the batches that are answered; whether more may be sent."""
        while self.batches and not self.batches[0].left:
            for refusal in self.batches.popleft().refused:
                self.refused += 1
                if self.tell:
                    self.tell(refusal)
                self.first_refusal = self.first_refusal or refusal
        return self.tell is not None or self.first_refusal is None

    def count(self) -> int:
        """How many were added; where refusals aren't told, the first one is raised."""
        self.look()
        added = self.sent - self.refused
        if self.tell is None and self.first_refusal:
            self.first_refusal.added = added
            raise self.first_refusal
        return added
