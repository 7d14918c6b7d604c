"""The pages: a box with what it finds, and a mail. They need no script, and show what a mail has as text alone."""
from __future__ import annotations

import re
import unicodedata
from collections.abc import Iterable

import flask
import lafkundi
from archive import A_PAGE, MOST_PAGES, Archive, Found
from lafkundi import Hit, NotRead

ORDERS = {"score": "best first", "newest": "newest first", "oldest": "oldest first"}
DAY = re.compile(r"(?:/\d{4}(?:/\d\d){0,2})?")
POLICY = "default-src 'none'; style-src 'self'; form-action 'self'; base-uri 'none'; frame-ancestors 'none'"
HEADERS = {"Content-Security-Policy": POLICY, "X-Content-Type-Options": "nosniff", "Referrer-Policy": "no-referrer"}
KEPT = "\n\t\u200c\u200d"
LONGEST_TEXT = 500
# Of a text without a word that is looked for its beginning is shown, in so many letters.
BEGINNING = 240
Pieces = Iterable[tuple[str, bool]]


def visible(text: str) -> str:
    """A text without control characters, and without those that turn the order of others."""
    return "".join(c for c in text if c in KEPT or unicodedata.category(c) not in ("Cc", "Cf", "Cs"))


def beginning(text: str) -> str:
    return text if len(text) <= BEGINNING else text[:BEGINNING].rpartition(" ")[0][:BEGINNING] + " …"


def shown(hit: Hit, field: str, without: str = "") -> Pieces:
    """The passage of a field with the words that are looked for, else its beginning, in pieces."""
    passage = hit.passages.get(field)
    pieces = passage.pieces() if passage else [(beginning(str(hit.first(field) or without)), False)]
    return [(visible(piece), is_word) for piece, is_word in pieces]


def marked(text: str, words: set[str]) -> Pieces:
    """A whole text in pieces, each with whether it is one of the words."""
    if not words:
        return [(visible(text), False)]
    longest_first = [re.escape(word) for word in sorted(words, key=len, reverse=True)]
    found = re.split(rf"(?<!\w)({'|'.join(longest_first)})(?!\w)", text, flags=re.IGNORECASE)
    return [(visible(piece), number % 2 == 1) for number, piece in enumerate(found) if piece]


def subject_of(hit: Hit) -> str:
    return str(hit.first("subject") or "(no subject)")


def sent_of(hit: Hit) -> str:
    """When a mail was sent, to the minute."""
    sent = hit.first("sent")
    return f"{sent[:10]} {sent[11:16]}" if sent else "without a date"


def asked_page(text: str) -> int:
    return min(max(1, int(text)), MOST_PAGES) if text.isascii() and text.isdigit() and len(text) < 9 else 1


def asked_day(text: str) -> str:
    return text if DAY.fullmatch(text) else ""


def asked_order(text: str) -> str:
    return text if text in ORDERS else "score"


def ways_up(day: str) -> list[str]:
    """A day with the month and the year that it is in."""
    steps = day.split("/")[1:]
    return ["/" + "/".join(steps[:count]) for count in range(1, len(steps) + 1)]


def note_of(text: str, why: NotRead) -> str:
    """Where a text isn't read, and what to write instead."""
    rest = text.encode("utf-8", "replace")[why.at:].decode("utf-8", "replace")
    where = f"At “{beginning(rest)}”" if rest else "At its end"
    return f"{where} that isn't read: {why.cure}."


def make_app(archive: Archive) -> flask.Flask:
    app = flask.Flask("page", root_path=flask.helpers.get_root_path(__name__))
    app.jinja_env.globals.update(shown=shown, marked=marked, subject_of=subject_of, sent_of=sent_of)
    app.jinja_env.globals.update(beginning=beginning)
    app.jinja_env.globals.update(visible=visible, ORDERS=ORDERS, A_PAGE=A_PAGE)
    app.jinja_env.trim_blocks = app.jinja_env.lstrip_blocks = True

    @app.get("/")
    def search() -> str:
        given = flask.request.args
        text, day = given.get("q", "")[:LONGEST_TEXT].strip(), asked_day(given.get("day", ""))
        order, page, note = asked_order(given.get("order", "")), asked_page(given.get("page", "")), ""
        try:
            found = archive.found(text, day, order, page)
        except NotRead as why:
            found, note = Found([], 0, [], 0.0), note_of(text, why)
        return flask.render_template("found.html", text=text, day=day, order=order, page=page, found=found, note=note,
                                     ways_up=ways_up(day))

    @app.get("/mail")
    def mail() -> str:
        text = flask.request.args.get("q", "")[:LONGEST_TEXT].strip()
        hit, words = archive.mail(flask.request.args.get("id", ""), text)
        if hit is None:
            flask.abort(404)
        return flask.render_template("mail.html", text=text, hit=hit, words=words)

    @app.errorhandler(404)
    def not_there(_: Exception) -> tuple[str, int]:
        return flask.render_template("trouble.html", text="", trouble="There is no such page, or no such mail."), 404

    @app.errorhandler(lafkundi.Error)
    def not_answered(why: lafkundi.Error) -> tuple[str, int]:
        app.logger.error("%s", why)
        return flask.render_template("trouble.html", text="", trouble="The index doesn't answer. Try it again."), 503

    @app.after_request
    def guard(response: flask.Response) -> flask.Response:
        response.headers.update(HEADERS)
        return response

    return app
