"""Lines as docs/REQUESTS.md has them: a request as bytes, and a reply as values."""
from __future__ import annotations

import base64
import datetime
import ipaddress
import json
from collections.abc import Mapping
from typing import Any

Document = Mapping[str, Any] | str | bytes


def plain(value: object) -> str:
    """The text that stands for a value which JSON has no form for."""
    if isinstance(value, datetime.datetime):
        if value.tzinfo is None:
            raise ValueError(f"{value!r} has no zone; write it as {value.isoformat()}+00:00, or set tzinfo")
        return value.isoformat()
    if isinstance(value, (bytes, bytearray)):
        return base64.b64encode(value).decode()
    if isinstance(value, (ipaddress.IPv4Address, ipaddress.IPv6Address)):
        return str(value)
    if isinstance(value, datetime.date):
        raise TypeError(f"{value!r} has no time: a date field takes a datetime, a facet {value:'/%Y/%m/%d'}")
    raise TypeError(f"JSON has no form for {value!r}")


ENCODER = json.JSONEncoder(ensure_ascii=False, separators=(",", ":"), allow_nan=False, default=plain)


def json_of(value: object) -> str:
    """A value as JSON without white space; a datetime, bytes and an address are texts."""
    return ENCODER.encode(value)


def line_of(request: Mapping[str, Any]) -> bytes:
    """A request as a line."""
    return json_of(request).encode() + b"\n"


def line_of_add(document: Document) -> bytes:
    """The line that adds a document, which is a mapping, or JSON on one line."""
    if isinstance(document, (str, bytes)):
        text = document.encode() if isinstance(document, str) else document
        text = text.rstrip(b"\r\n")
        if b"\n" in text:
            raise ValueError("a document that is given as JSON stands on one line")
    else:
        text = json_of(document).encode()
    return b'{"op":"add","doc":' + text + b"}\n"
