"""Fields of a schema, as docs/REQUESTS.md describes them.

    schema = [text("title", stored=True), text("from", tokenizer="raw"), number("year", stored=True), facet("label")]

What is indexed is found, and is so unless `indexed=False`; what is stored is shown, and isn't unless `stored=True`.
Each function gives the JSON of a field, which can be pasted into a line, and written by hand as well.
"""
from __future__ import annotations

from typing import Any, Literal

Field = dict[str, Any]
Record = Literal["basic", "freq", "position"]


def text(name: str, *, stored: bool = False, indexed: bool = True, record: Record = "position",
         tokenizer: str = "default", fieldnorms: bool = True, gap: int = 1, coerce: bool = False) -> Field:
    """A field of texts. With the tokenizer `raw` the whole text is one word."""
    indexing = {"record": record, "tokenizer": tokenizer, "fieldnorms": fieldnorms, "gap": gap} if indexed else None
    return field(name, "text", stored=stored, indexing=indexing, coerce=coerce)


def number(name: str, *, stored: bool = False, indexed: bool = True, signed: bool = False,
           coerce: bool = False) -> Field:
    """A field of whole numbers from 0 on, or with `signed` below 0 too."""
    return field(name, "i64" if signed else "u64", stored=stored, indexed=indexed, coerce=coerce)


def boolean(name: str, *, stored: bool = False, indexed: bool = True, coerce: bool = False) -> Field:
    """A field that is true or false."""
    return field(name, "bool", stored=stored, indexed=indexed, coerce=coerce)


def date(name: str, *, stored: bool = False, indexed: bool = True) -> Field:
    """A field of moments; it takes a `datetime` with a zone."""
    return field(name, "date", stored=stored, indexed=indexed)


def facet(name: str, *, stored: bool = False) -> Field:
    """A field of labels, as `/crew/harbour`, which are found with all below them; it is always indexed."""
    return field(name, "facet", stored=stored)


def binary(name: str, *, stored: bool = False, indexed: bool = True) -> Field:
    """A field of bytes."""
    return field(name, "bytes", stored=stored, indexed=indexed)


def address(name: str, *, stored: bool = False, indexed: bool = True) -> Field:
    """A field of IPv4 and IPv6 addresses."""
    return field(name, "ip_addr", stored=stored, indexed=indexed)


def objects(name: str, *, stored: bool = False, indexed: bool = True, record: Record = "position",
            tokenizer: str = "default", expand_dots: bool = False) -> Field:
    """A field of JSON objects, whose values are found by their paths."""
    indexing = {"record": record, "tokenizer": tokenizer} if indexed else None
    return field(name, "json_object", stored=stored, indexing=indexing, expand_dots=expand_dots)


def field(name: str, kind: str, **options: Any) -> Field:
    """A field of any type, with its options as they stand in docs/REQUESTS.md."""
    return {"name": name, "type": kind, "options": options}
