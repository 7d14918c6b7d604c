"""An index for asyncio: the calls of `Index` as coroutines. Tasks may share one; what they ask is under way at once."""
from __future__ import annotations

import asyncio
import os
from collections.abc import AsyncIterable, AsyncIterator, Callable, Generator, Iterable
from types import TracebackType
from typing import IO, Any

from . import refusals, requests
from .errors import Acknowledged, Error, NoProgram, Refusal
from .exchange import Exchange, Waiting
from .index import look_for
from .lines import Document
from .pipes import READ
from .program import Program, command_of, error_file, last_words, starting
from .queries import Query, Term
from .requests import Added, Answer, Batch, Batches, Hit, Request, Schema, Settings, Standing


class Awaited(Waiting):
    """The lines of a call that a task waits for."""

    __slots__ = ("future",)

    def __init__(self, op: str, count: int = 1, first: int = 0) -> None:
        super().__init__(op, count, first)
        self.future: asyncio.Future[None] = asyncio.get_running_loop().create_future()

    def finish(self) -> None:
        if not self.future.done():
            self.future.set_result(None)


class AsyncIndex:
    """An index that `open_async` opens: `async with open_async(path, schema=..) as index`, or `await open_async(..)`.

    Its calls, and what they raise, are those of `Index`."""

    def __init__(self, path: str | os.PathLike[str], schema: Schema | None, settings: Settings | None,
                 program: Program) -> None:
        self.path = os.fspath(path)
        self._command = command_of(program, path)
        self._schema, self._settings = schema, settings
        self._exchange = Exchange()
        self._ended: Exception | None = None
        self._process: asyncio.subprocess.Process
        self._errors: IO[bytes]
        self._reading: asyncio.Task[None]

    @property
    def pid(self) -> int:
        """The number of the program's process."""
        return self._process.pid

    @property
    def acknowledged(self) -> Acknowledged:
        """What was answered with ok since the program was started."""
        return self._exchange.acknowledged

    async def add(self, document: Document) -> None:
        """Adds a document, which waits for a commit."""
        await self._ask(requests.add(document))

    async def add_many(self, documents: Iterable[Document] | AsyncIterable[Document], *,
                       refused: Callable[[Refusal], object] | None = None) -> int:
        """Adds documents as they come, some thousands of them under way at once; how many were added."""
        added, batches = Added[Awaited](refused), Batches()
        try:
            async for document in each_of(documents):
                batch = batches.put(document)
                if batch and not await self._add_batch(added, batch):
                    break
            else:
                batch = batches.rest()
                if batch:
                    await self._add_batch(added, batch)
        finally:
            await self._answer_all(added)
        return added.count()

    async def delete(self, term: Term) -> None:
        """Deletes the documents with a term that were added before; this waits for a commit."""
        await self._ask(requests.delete(term))

    async def commit(self) -> None:
        """Writes what waits; from then on searches see it."""
        await self._ask(requests.request("commit"))

    async def reopen(self) -> None:
        """Opens the index again, as after `WriterClosed`, `Closed` or `Device`; what waited is lost."""
        await self._ask(requests.request("open"))

    async def merge(self, first: int, end: int) -> None:
        """Makes one segment of those from one index to another, the second not among them."""
        await self._ask(requests.merge(first, end))

    async def merge_all(self) -> None:
        """Makes one segment of all, without the documents that are deleted; the file grows by it."""
        while not await self._merge_listed() and await self._merge_most() == requests.MOST_SEGMENTS:
            pass

    async def search(self, query: Query, k: int = 10) -> list[Hit]:
        """The best k documents that match, by score and then in the order of addition."""
        return requests.hits_of(await self._ask(requests.search(query, k)))

    async def ask(self, text: str, k: int = 10, *, start: int = 0, flat: bool = False,
                  best_field: bool = False) -> Answer:
        """What a text finds that a person writes: its `matches`, and the best k `hits`, each with its `passages`."""
        return requests.answer_of(await self._ask(requests.ask(text, k, start, flat, best_field)))

    async def standing(self) -> Standing:
        """How many documents and segments stand in the index."""
        return requests.standing_of(await self._ask(requests.request("segments")))

    async def count(self, query: Query | str) -> int:
        """How many documents match a query, or a text as `ask` takes it."""
        return int((await self._ask(requests.count(query)))["count"])

    async def counts(self, queries: Iterable[Query | str]) -> list[int]:
        """How many documents match each query or text, all asked at once."""
        return await asyncio.gather(*map(self.count, queries))

    async def ask_as_it_is(self, request: dict[str, Any]) -> dict[str, Any]:
        """Sends a request as it stands in docs/REQUESTS.md, and hands back the reply."""
        reply: dict[str, Any] = await self._ask(requests.request(**request))
        return reply

    async def close(self) -> None:
        """Ends the program. What waits for a commit is lost."""
        if self._ended is None:
            self._ended = ValueError(f"the index of {self.path} is closed")
            self._writer.close()
        await asyncio.wait([self._reading])

    async def start(self) -> AsyncIndex:
        """Starts the program, and opens the index; where there is none and a schema was given, makes it."""
        look_for(self.path, self._schema)
        self._errors = error_file()
        try:
            self._process = await asyncio.create_subprocess_exec(
                *self._command, stdin=asyncio.subprocess.PIPE, stdout=asyncio.subprocess.PIPE, stderr=self._errors,
                **starting())
        except OSError as why:
            self._errors.close()
            raise NoProgram(f"{self._command[0]} can't be started: {why.strerror}") from why
        self._reading = asyncio.create_task(self._read())
        try:
            await self._begin()
        except BaseException:
            await self.close()
            raise
        return self

    def __await__(self) -> Generator[Any, None, AsyncIndex]:
        return self.start().__await__()

    async def __aenter__(self) -> AsyncIndex:
        return await self.start()

    async def __aexit__(self, kind: type[BaseException] | None, value: BaseException | None,
                        trace: TracebackType | None) -> None:
        done = self.acknowledged
        try:
            if kind is None and self._ended is None and (done.waiting_adds or done.waiting_deletions):
                await self.commit()
        finally:
            await self.close()

    @property
    def _writer(self) -> asyncio.StreamWriter:
        assert self._process.stdin
        return self._process.stdin

    async def _begin(self) -> None:
        try:
            await self.reopen()
        except refusals.NoIndex:
            if self._schema is None:
                raise
            await self._ask(requests.create(self._schema, self._settings))

    async def _merge_listed(self) -> bool:
        """Merges all segments, where the program tells how many there are; whether it does."""
        try:
            segments = (await self.standing()).segments
        except refusals.BadRequest:
            return False
        if segments:
            await self.merge(0, segments)
        return True

    async def _merge_most(self) -> int:
        """Merges as many segments as there are; how many these were."""
        for end in range(requests.MOST_SEGMENTS, 0, -1):
            try:
                await self.merge(0, end)
                return end
            except refusals.BadRange:
                pass
        return 0

    async def _ask(self, request: Request) -> Any:
        sent = await self._send(Awaited(request.op), request.line)
        await sent.future
        return sent.answer()

    async def _add_batch(self, added: Added[Awaited], batch: Batch) -> bool:
        """Sends a batch as soon as there is room for it; whether more may be sent."""
        sent = Awaited("add", batch.documents, batch.first)
        added.send(sent)
        await self._send(sent, batch.data)
        while added.batches and self._exchange.in_flight > requests.MOST_IN_FLIGHT:
            await added.batches[0].future
            added.look()
        return added.look()

    async def _answer_all(self, added: Added[Awaited]) -> None:
        """Waits until all that was sent is answered."""
        if added.batches and self._ended is None:
            await added.batches[-1].future

    async def _send(self, sent: Awaited, data: bytes) -> Awaited:
        if self._ended is not None:
            raise self._ended.with_traceback(None)
        self._exchange.send(sent)
        self._writer.write(data)
        try:
            await self._writer.drain()
        except ConnectionError:
            pass
        return sent

    async def _read(self) -> None:
        """Takes what the program writes until it ends, and tells each task that waits then why."""
        output = self._process.stdout
        assert output
        why: Exception | None = None
        try:
            while data := await output.read(READ):
                self._exchange.take(data)
        except Error as wrong:
            why = wrong
            self._process.kill()
        status = await self._process.wait()
        why = why or self._exchange.died(status, last_words(self._errors))
        self._errors.close()
        self._ended = self._ended or why
        for waiting in self._exchange.waiting:
            if isinstance(waiting, Awaited) and not waiting.future.done():
                waiting.future.set_exception(why)
                waiting.future.exception()


async def each_of(documents: Iterable[Document] | AsyncIterable[Document]) -> AsyncIterator[Document]:
    """The documents of either kind of iterator."""
    if isinstance(documents, AsyncIterable):
        async for document in documents:
            yield document
    else:
        for document in documents:
            yield document


def open_async(path: str | os.PathLike[str], *, schema: Schema | None = None, settings: Settings | None = None,
               program: Program = None) -> AsyncIndex:
    """Opens the index of a file for asyncio; where there is none yet and a schema is given, makes one with it."""
    return AsyncIndex(path, schema, settings, program)
