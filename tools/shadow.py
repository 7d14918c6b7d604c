"""What a session over a file has to answer: tools/plain-scan with the states, segments and file of docs/REQUESTS.md.

Imported by tools/memory-test and tools/fuzz. A session isn't changed by a request: the one after it is another one, so
that several may be followed at once where a refusal leaves one of them.
"""
import dataclasses
import importlib.machinery
import os
import sys
import types

sys.dont_write_bytecode = True

OK = {"ok": True}
OUT_OF_MEMORY = {"error": "OutOfMemory"}
NO_INDEX = ()


def load_plain_scan():
    path = os.path.join(os.path.dirname(os.path.realpath(__file__)), "plain-scan")
    module = types.ModuleType("plain_scan")
    importlib.machinery.SourceFileLoader("plain_scan", path).exec_module(module)
    return module


scan = load_plain_scan()


def refusal(name):
    return {"error": name}


@dataclasses.dataclass(frozen=True)
class Made:
    """What a create makes: the fields and settings, for ever."""

    schema: list
    settings: dict

    def scan_of(self, documents):
        index = scan.Index(self.schema, self.settings)
        index.committed = documents
        return index

    def document(self, given):
        return scan.Document(self.scan_of([]).fields, given)

    def segments_of(self, documents):
        """The segments of documents that waited."""
        size = self.settings.get("docs_per_segment", 65536)
        return [documents[first : first + size] for first in range(0, len(documents), size)]


@dataclasses.dataclass(frozen=True)
class Session:
    """A session over a file: its stage is none, ready, closed where its writer is, or failed where its device did."""

    stage: str = "none"
    made: Made = None
    # The living documents of each committed segment.
    segments: tuple = ()
    # All documents that were added since the last commit, and those that a deletion covers, committed ones too.
    waiting: tuple = ()
    dead: frozenset = frozenset()
    # What the file has: what was made, and the segments; None where it has no byte, NO_INDEX where it has others.
    file: tuple = None

    def answer(self, request, refused=None):
        """The reply to a request, and the session after it; `refused` names what its own values are refused by."""
        if refused == "BadRequest":
            return refusal(refused), self
        if request["op"] in ("create", "open") and self.stage == "ready":
            return refusal("AlreadyOpen"), self
        if request["op"] not in ("create", "open") and self.stage == "none":
            return refusal("NotOpen"), self
        if request["op"] not in ("create", "open") and self.stage == "failed":
            return refusal("Closed"), self
        if request["op"] in ("add", "delete", "commit", "merge") and self.stage == "closed":
            return refusal("WriterClosed"), self
        if refused:
            return refusal(refused), self
        return getattr(self, request["op"])(request)

    def after_refused_memory(self, request):
        """The sessions that a request may leave which was answered `OutOfMemory`."""
        if request["op"] in ("add", "commit") and self.stage == "ready":
            return [self, self.closed()]
        if request["op"] in ("create", "open") and self.stage != "ready":
            return [self, self.dropped()]
        return [self]

    def after_failed_device(self, request):
        """The sessions that a request may leave which was answered `Device`; what the device refused changed nothing."""
        if request["op"] in ("commit", "merge") and self.stage == "ready":
            return [dataclasses.replace(self, stage="failed", waiting=(), dead=frozenset())]
        if request["op"] in ("create", "open") and self.stage != "ready":
            begun = [Session(file=NO_INDEX)] if request["op"] == "create" and self.file is None else []
            return [self.dropped(), *begun]
        return []

    def closed(self):
        return dataclasses.replace(self, stage="closed", waiting=(), dead=frozenset())

    def dropped(self):
        return Session(file=self.file)

    def documents(self):
        return [document for segment in self.segments for document in segment]

    def create(self, request):
        if self.file is not None:
            return refusal("NotEmpty"), self.dropped()
        made = Made(request["schema"], request.get("settings", {}))
        made.scan_of([])
        return OK, Session("ready", made, file=(made, ()))

    def open(self, _):
        if self.file in (None, NO_INDEX):
            return refusal("NoIndex"), self.dropped()
        made, segments = self.file
        return OK, Session("ready", made, segments, file=self.file)

    def add(self, request):
        return OK, dataclasses.replace(self, waiting=self.waiting + (self.made.document(request["doc"]),))

    def delete(self, request):
        term = self.made.scan_of([]).term(request["term"])
        covered = {document for document in (*self.documents(), *self.waiting) if term in document.places}
        return OK, dataclasses.replace(self, dead=self.dead | covered)

    def commit(self, _):
        segments = [*self.segments, *self.made.segments_of(self.waiting)]
        living = tuple(tuple(document for document in segment if document not in self.dead) for segment in segments)
        return OK, Session("ready", self.made, living, file=(self.made, living))

    def merge(self, request):
        first, last = request["from"], request["to"]
        if not first < last <= len(self.segments):
            return refusal("BadRange"), self
        merged = tuple(document for segment in self.segments[first:last] for document in segment)
        segments = (*self.segments[:first], *([merged] if merged else []), *self.segments[last:])
        return OK, dataclasses.replace(self, segments=segments, file=(self.made, segments))

    def search(self, request):
        return {"hits": self.made.scan_of(self.documents()).hits(request["query"], request["k"])}, self

    def count(self, request):
        return {"count": self.made.scan_of(self.documents()).count(request["query"])}, self
