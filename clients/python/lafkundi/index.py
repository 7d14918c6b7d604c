"""An index, asked through a program that runs as long as the index is open. Threads may share one."""
from __future__ import annotations

import os
import threading
from collections.abc import Callable, Iterable
from types import TracebackType
from typing import Any

from . import refusals, requests
from .errors import Acknowledged, Error, Refusal
from .exchange import Exchange, Waiting
from .lines import Document
from .pipes import Pipes
from .program import Program, command_of
from .queries import Query, Term
from .requests import Added, Answer, Batch, Batches, Hit, Request, Schema, Settings, Standing


class Index:
    """An index that is open. `open` and `create` make one.

    A `with` commits at its end what waits, unless an exception ends it; `close` loses what waits. Each refusal is
    raised, as the class of its name in `lafkundi.refusals`. One call after the other is asked; of several threads each
    has its turn, also between the documents of an `add_many`.
    """

    def __init__(self, path: str | os.PathLike[str], *, program: Program = None) -> None:
        """Starts the program, and asks nothing: an `open` or a `create` has to come first."""
        self.path = os.fspath(path)
        self._exchange = Exchange()
        self._pipes = Pipes(command_of(program, self.path))
        self._lock = threading.Lock()
        self._process = os.getpid()
        self._ended: Exception | None = None

    @property
    def pid(self) -> int:
        """The number of the program's process."""
        return self._pipes.process.pid

    @property
    def acknowledged(self) -> Acknowledged:
        """What was answered with ok since the program was started."""
        return self._exchange.acknowledged

    def add(self, document: Document) -> None:
        """Adds a document, which waits for a commit: a mapping of fields, or its JSON on one line."""
        self._ask(requests.add(document))

    def add_many(self, documents: Iterable[Document], *, refused: Callable[[Refusal], object] | None = None) -> int:
        """Adds documents as they come, some thousands of them under way at once; how many were added.

        A refusal is handed to `refused`, with the document's `number`, and the others go on. Without it none is read
        any more after the first refusal, which is raised once those under way are answered.
        """
        added, batches = Added[Waiting](refused), Batches()
        try:
            for document in documents:
                batch = batches.put(document)
                if batch and not self._add_batch(added, batch):
                    break
            else:
                batch = batches.rest()
                if batch:
                    self._add_batch(added, batch)
        finally:
            self._answer_all(added)
        return added.count()

    def delete(self, term: Term) -> None:
        """Deletes the documents with a term that were added before; this waits for a commit."""
        self._ask(requests.delete(term))

    def commit(self) -> None:
        """Writes what waits; from then on searches see it."""
        self._ask(requests.request("commit"))

    def reopen(self) -> None:
        """Opens the index again, as after `WriterClosed`, `Closed` or `Device`; what waited is lost."""
        self._ask(requests.request("open"))

    def merge(self, first: int, end: int) -> None:
        """Makes one segment of those from one index to another, the second not among them."""
        self._ask(requests.merge(first, end))

    def merge_all(self) -> None:
        """Makes one segment of all, without the documents that are deleted; the file grows by it."""
        while not self._merge_listed() and self._merge_most() == requests.MOST_SEGMENTS:
            pass

    def search(self, query: Query, k: int = 10) -> list[Hit]:
        """The best k documents that match, by score and then in the order of addition."""
        return requests.hits_of(self._ask(requests.search(query, k)))

    def ask(self, text: str, k: int = 10, *, start: int = 0, flat: bool = False, best_field: bool = False) -> Answer:
        """What a text finds that a person writes: how many `matches`, and the best k `hits`, each with its `passages`.

        The text is that of `ask` in docs/REQUESTS.md; `flat` and `best_field` are its options, and `start` is how many
        hits are left out first. One that isn't read raises `refusals.NotRead`, with the byte and the cure.
        """
        return requests.answer_of(self._ask(requests.ask(text, k, start, flat, best_field)))

    def standing(self) -> Standing:
        """How many documents and segments stand in the index."""
        return requests.standing_of(self._ask(requests.request("segments")))

    def count(self, query: Query | str) -> int:
        """How many documents match a query, or a text as `ask` takes it."""
        return int(self._ask(requests.count(query))["count"])

    def counts(self, queries: Iterable[Query | str]) -> list[int]:
        """How many documents match each query or text, all asked at once, as those at the side of a page are."""
        asked = [requests.count(query) for query in queries]
        return [int(reply["count"]) for reply in self._ask_all(asked)]

    def ask_as_it_is(self, request: dict[str, Any]) -> dict[str, Any]:
        """Sends a request as it stands in docs/REQUESTS.md, and hands back the reply."""
        reply: dict[str, Any] = self._ask(requests.request(**request))
        return reply

    def close(self) -> None:
        """Ends the program. What waits for a commit is lost."""
        with self._lock:
            if self._ended is None:
                self._end(ValueError(f"the index of {self.path} is closed"), *self._pipes.finish(self._exchange.take))

    def __enter__(self) -> Index:
        return self

    def __exit__(self, kind: type[BaseException] | None, value: BaseException | None,
                 trace: TracebackType | None) -> None:
        done = self.acknowledged
        try:
            if kind is None and self._ended is None and (done.waiting_adds or done.waiting_deletions):
                self.commit()
        finally:
            self.close()

    def _merge_listed(self) -> bool:
        """Merges all segments, where the program tells how many there are; whether it does."""
        try:
            segments = self.standing().segments
        except refusals.BadRequest:
            return False
        if segments:
            self.merge(0, segments)
        return True

    def _merge_most(self) -> int:
        """Merges as many segments as there are; how many these were."""
        for end in range(requests.MOST_SEGMENTS, 0, -1):
            try:
                self.merge(0, end)
                return end
            except refusals.BadRange:
                pass
        return 0

    def _ask(self, request: Request) -> Any:
        return self._ask_all([request])[0]

    def _ask_all(self, asked: list[Request]) -> list[Any]:
        """Sends requests, and waits for their replies; the first refusal is raised."""
        sent = [Waiting(request.op) for request in asked]
        with self._lock:
            self._send(sent, b"".join(request.line for request in asked))
            self._move(lambda: not sent or not sent[-1].left)
        return [waiting.answer() for waiting in sent]

    def _add_batch(self, added: Added[Waiting], batch: Batch) -> bool:
        """Sends a batch as soon as there is room for it; whether more may be sent."""
        waiting = Waiting("add", batch.documents, batch.first)
        with self._lock:
            self._send([waiting], batch.data)
            added.send(waiting)
            self._move(lambda: not self._pipes.out and self._exchange.in_flight <= requests.MOST_IN_FLIGHT)
        return added.look()

    def _answer_all(self, added: Added[Waiting]) -> None:
        """Waits until all that was sent is answered."""
        with self._lock:
            if self._ended is None:
                self._move(lambda: not added.batches or not added.batches[-1].left)

    def _send(self, sent: list[Waiting], data: bytes) -> None:
        if self._process != os.getpid():
            raise Error("this index was opened by another process; open one in each")
        if self._ended is not None:
            raise self._ended.with_traceback(None)
        for waiting in sent:
            self._exchange.send(waiting)
        self._pipes.out += data

    def _move(self, is_done: Callable[[], bool]) -> None:
        """Writes and reads until it is done. An interrupt while it waits leaves all as it stands."""
        while not is_done():
            readable = self._pipes.wait()
            try:
                self._step(readable)
            except BaseException as why:
                if self._ended is None:
                    self._end(why if isinstance(why, Error) else Error(f"interrupted: {why!r}"), *self._pipes.kill())
                raise

    def _step(self, readable: bool) -> None:
        if self._pipes.out:
            self._pipes.write()
        data = self._pipes.read() if readable else None
        if data:
            self._exchange.take(data)
        elif readable:
            died = self._exchange.died(*self._pipes.end())
            self._end(died, died.status, died.last_words)
            raise died

    def _end(self, why: Exception, status: int, last_words: str) -> None:
        """Notes why nothing can be asked any more."""
        self._ended = why


def open(path: str | os.PathLike[str], *, schema: Schema | None = None, settings: Settings | None = None,
         program: Program = None) -> Index:
    """Opens the index of a file. Where there is none yet and a schema is given, makes one with it.

    `program` is the path of a program that answers lines, or a list of words, behind which the path is put; else it is
    what LAFKUNDI says in the environment, else `lafkundi serve`.
    """
    look_for(path, schema)
    index = Index(path, program=program)
    try:
        begin(index, schema, settings)
    except BaseException:
        index.close()
        raise
    return index


def look_for(path: str | os.PathLike[str], schema: Schema | None) -> None:
    """Refuses to open a file that is absent: the program would make it."""
    if schema is None and not os.path.lexists(path):
        raise refusals.NoIndex("NoIndex", "open")


def begin(index: Index, schema: Schema | None, settings: Settings | None) -> None:
    try:
        index.reopen()
    except refusals.NoIndex:
        if schema is None:
            raise
        index._ask(requests.create(schema, settings))


def create(path: str | os.PathLike[str], schema: Schema, *, settings: Settings | None = None,
           program: Program = None) -> Index:
    """Makes the index of a file that isn't there, or is empty."""
    index = Index(path, program=program)
    try:
        index._ask(requests.create(schema, settings))
    except BaseException:
        index.close()
        raise
    return index
