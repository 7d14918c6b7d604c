"""Adds the mails of a Maildir to an archive, those that come later too, in a thread of its own.

A mail is known by its Message-ID: what the index has isn't added again, and one that comes a second time takes the
place of the first. The folder stays as it is, and what is taken out of it stays in the index.
"""
from __future__ import annotations

import os
import sys
import threading

import lafkundi
from archive import Archive
from lafkundi import Index, Term

sys.path.insert(0, f"{os.path.dirname(os.path.realpath(__file__))}/../../tools")
import mail_texts  # noqa: E402

FOLDERS = ("new", "cur")
# As many mails are read and added before a commit; a page sees them then.
BATCH = 500
# Lines are at most 16 megabytes; a body that is longer has its beginning indexed.
LONGEST_BODY = 2000000


def document(data: bytes) -> dict[str, object]:
    """The fields of a mail, as tools/from-mbox has them."""
    troubles: list[str] = []
    mail = mail_texts.parsed(data, troubles)
    found = {name: mail_texts.people_of(mail, name, troubles) for name in ("from", "to", "cc")}
    people = [" ".join(person).strip() for name in found for person in found[name]]
    doc = {"id": mail_texts.identifier_of(mail, data, troubles), "subject": mail_texts.subject_of(mail, troubles),
           "people": list(dict.fromkeys(person for person in people if person)),
           "body": mail_texts.attempt(lambda: mail_texts.body_of(mail, troubles), "", troubles, "body")[:LONGEST_BODY]}
    for name in ("from", "to"):
        doc[name] = list(dict.fromkeys(address.lower() for _, address in found[name] if address))
    sent = mail_texts.date_of(mail, troubles)
    if sent:
        doc |= {"sent": sent.strftime("%Y-%m-%dT%H:%M:%SZ"), "day": sent.strftime("/%Y/%m/%d")}
    return whole(doc)


def whole(value: object) -> object:
    """A value without halves of characters, which UTF-8 has no bytes for."""
    if isinstance(value, str):
        return value.encode("utf-8", "replace").decode()
    if isinstance(value, list):
        return [whole(each) for each in value]
    return {key: whole(each) for key, each in value.items()} if isinstance(value, dict) else value


class Inbox(threading.Thread):
    """A Maildir that is looked at every few seconds."""

    def __init__(self, archive: Archive, folder: str, seconds: float) -> None:
        super().__init__(daemon=True, name="inbox")
        self.archive, self.folder, self.seconds = archive, folder, seconds
        self.known: set[str] = set()
        self.ended = threading.Event()

    def run(self) -> None:
        while not self.ended.wait(self.seconds if self.known else 0):
            try:
                self.look()
            except (lafkundi.Error, OSError) as why:
                print(f"inbox: {why}", file=sys.stderr, flush=True)
                self.ended.wait(self.seconds)

    def look(self) -> None:
        """Adds what is new in the folder, some mails at a time."""
        paths = [path for path in self.paths() if os.path.basename(path).partition(":")[0] not in self.known]
        for first in range(0, len(paths), BATCH):
            these = paths[first:first + BATCH]
            documents = [document(data) for data in map(read, these) if data]
            added = self.archive.ask(lambda index, documents=documents: add(index, documents))
            if added:
                print(f"inbox: {added} mails added", flush=True)
            self.known.update(os.path.basename(path).partition(":")[0] for path in these)

    def paths(self) -> list[str]:
        """The mails of the folder, by the names that they keep when they are moved in it."""
        found = []
        for name in FOLDERS:
            folder = os.path.join(self.folder, name)
            found += [entry.path for entry in os.scandir(folder) if entry.is_file()] if os.path.isdir(folder) else []
        return sorted(found, key=os.path.basename)


def read(path: str) -> bytes:
    """The bytes of a mail; nothing of one that was moved meanwhile, which is found again."""
    try:
        with open(path, "rb") as file:
            return file.read()
    except FileNotFoundError:
        return b""


def add(index: Index, documents: list[dict[str, object]]) -> int:
    """Adds the mails that the index hasn't, and commits them; how many these are."""
    stand = index.counts(Term("id", doc["id"]) for doc in documents)
    lacking = {doc["id"]: doc for doc, count in zip(documents, stand, strict=True) if not count}
    index.add_many(lacking.values(), refused=lambda refused: print(f"inbox: {refused}", file=sys.stderr, flush=True))
    if lacking:
        index.commit()
    return len(lacking)
