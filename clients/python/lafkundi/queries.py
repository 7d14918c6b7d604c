"""Queries as values. Each prints as its JSON in docs/REQUESTS.md, so that `str(query)` can be pasted into a line.

    Term("title", "sea") & ~Phrase("body", "old", "quay")
    Term("from", "ann@quay.example") | Boost(Term("subject", "winter"), 3)

`a & b` finds what both find, `a | b` what one of them finds, `a & ~b` what a finds and b doesn't; scores are summed up.
A lone `~a` finds nothing, and is refused with what to write.
"""
from __future__ import annotations

from collections.abc import Iterable, Sequence
from typing import Any, Literal, NoReturn, overload

from .lines import json_of

Json = dict[str, Any]
Record = Literal["basic", "freq", "position"]


class Query:
    """A query; `str(query)` is its JSON."""

    __slots__ = ("_json", "_written")

    def __init__(self, json: Json, *arguments: object, **named: object) -> None:
        self._json = json
        words = [repr(argument) for argument in arguments]
        words += [f"{name}={value!r}" for name, value in named.items() if value is not None and value != []]
        self._written = f"{type(self).__name__}({', '.join(words)})"

    def to_json(self) -> Json:
        """The query as the JSON value that a request has."""
        return self._json

    def __str__(self) -> str:
        return json_of(self._json)

    def __repr__(self) -> str:
        return self._written

    def __eq__(self, other: object) -> bool:
        return isinstance(other, Query) and str(self) == str(other)

    def __hash__(self) -> int:
        return hash(str(self))

    def __invert__(self) -> Not:
        return Not(self)

    def __and__(self, other: Query | Not) -> Bool:
        if isinstance(other, Not):
            return joined(self, None, other.query)
        return joined(self, a_query(other))

    def __or__(self, other: Query) -> Bool:
        if isinstance(other, Not):
            other.refuse(f"{self!r} | (All() & {other!r})")
        return Bool(should=[*either_of(self), *either_of(a_query(other))])


class Not:
    """`~query`, which only rules out: it stands behind an `&`."""

    __slots__ = ("query",)

    def __init__(self, query: Query) -> None:
        self.query = a_query(query)

    def __repr__(self) -> str:
        return f"~{self.query!r}"

    def __invert__(self) -> Query:
        return self.query

    @overload
    def __and__(self, other: Query) -> Bool: ...
    @overload
    def __and__(self, other: Not) -> Not: ...

    def __and__(self, other: Query | Not) -> Bool | Not:
        if isinstance(other, Not):
            return Not(self.query | other.query)
        return joined(a_query(other), None, self.query)

    def __or__(self, other: object) -> NoReturn:
        self.refuse(f"(All() & {self!r}) | {other!r}")

    def __str__(self) -> str:
        self.refuse(f"All() & {self!r}")

    def refuse(self, what_to_write: str) -> NoReturn:
        raise ValueError(f"{self!r} finds nothing by itself: write {what_to_write}")


def a_query(value: object) -> Query:
    """The value itself, where it is a query."""
    if isinstance(value, Query):
        return value
    if isinstance(value, Not):
        value.refuse(f"All() & {value!r}")
    raise TypeError(f"{value!r} is no query: write Term(field, value), or another class of lafkundi.queries")


def queries(values: Iterable[Query]) -> list[Query]:
    if isinstance(values, (Query, Not)):
        raise TypeError(f"write a list: [{values!r}]")
    return [a_query(value) for value in values]


def all_json(values: Iterable[Query]) -> list[Json]:
    return [value.to_json() for value in values]


class Term(Query):
    """The documents with a term: a word as it is indexed, a number, a label, or the value at a path of an object."""

    __slots__ = ()

    def __init__(self, field: str, value: Any, *, path: Sequence[str] | None = None,
                 record: Record | None = None) -> None:
        json = {"q": "term", **term_json(field, value, path)}
        super().__init__(json if record is None else {**json, "record": record}, field, value, path=path, record=record)

    def term(self) -> Json:
        """What stands in a deletion."""
        return {key: value for key, value in self._json.items() if key not in ("q", "record")}


def term_json(field: str, value: Any, path: Sequence[str] | None) -> Json:
    if isinstance(path, str):
        raise TypeError(f"write a list of keys: path=[{path!r}]")
    return {"field": field, "value": value} if path is None else {"field": field, "path": list(path), "value": value}


class Phrase(Query):
    """Words beside each other, or with others between them: `Phrase("body", "old", "quay", slop=1)`."""

    __slots__ = ()

    def __init__(self, field: str, *words: Any, path: Sequence[str] | None = None,
                 offsets: Sequence[int] | None = None, slop: int | None = None) -> None:
        json: Json = {"q": "phrase", "terms": [term_json(field, word, path) for word in words]}
        json |= {} if offsets is None else {"offsets": list(offsets)}
        json |= {} if slop is None else {"slop": slop}
        super().__init__(json, field, *words, path=path, offsets=offsets, slop=slop)


class PhrasePrefix(Query):
    """A phrase whose last word is only begun: `PhrasePrefix("body", "old", "qu")`."""

    __slots__ = ()

    def __init__(self, field: str, *words: Any, path: Sequence[str] | None = None,
                 offsets: Sequence[int] | None = None) -> None:
        json: Json = {"q": "phrase_prefix", "terms": [term_json(field, word, path) for word in words]}
        json |= {} if offsets is None else {"offsets": list(offsets)}
        super().__init__(json, field, *words, path=path, offsets=offsets)


class All(Query):
    """Every document."""

    __slots__ = ()

    def __init__(self) -> None:
        super().__init__({"q": "all"})


class Nothing(Query):
    """No document."""

    __slots__ = ()

    def __init__(self) -> None:
        super().__init__({"q": "none"})


class Bool(Query):
    """What all `must`, no `must_not` and at least `minimum` of the `should` clauses find."""

    __slots__ = ("must", "should", "must_not", "minimum")

    def __init__(self, *, must: Iterable[Query] = (), should: Iterable[Query] = (), must_not: Iterable[Query] = (),
                 minimum: int | None = None) -> None:
        self.must, self.should, self.must_not = queries(must), queries(should), queries(must_not)
        self.minimum = minimum
        if self.must_not and not self.must and not self.should:
            raise ValueError("a Bool of must_not alone finds nothing: write must=[All()] beside it")
        clauses = {"must": self.must, "should": self.should, "must_not": self.must_not}
        json: Json = {"q": "bool", **{name: all_json(these) for name, these in clauses.items() if these}}
        json |= {} if minimum is None else {"min": minimum}
        super().__init__(json, minimum=minimum, **clauses)


def joined(first: Query, also: Query | None, ruled_out: Query | None = None) -> Bool:
    """A Bool of what both find, without what a third finds."""
    parts = [both_of(query) for query in (first, also) if query]
    must_not = [query for _, without in parts for query in without]
    must_not += either_of(ruled_out) if ruled_out else []
    return Bool(must=[query for these, _ in parts for query in these], must_not=must_not)


def both_of(query: Query) -> tuple[list[Query], list[Query]]:
    """The clauses of a query that is made of `&`: those that must match, and those that must not."""
    if isinstance(query, Bool) and query.must and not query.should and query.minimum is None:
        return query.must, query.must_not
    return [query], []


def either_of(query: Query) -> list[Query]:
    """The clauses of a query that is made of `|`."""
    if isinstance(query, Bool) and query.should and not (query.must or query.must_not) and query.minimum is None:
        return query.should
    return [query]


class DisMax(Query):
    """What one of the queries finds, by the best of their scores and `tie` thousandths of the others."""

    __slots__ = ()

    def __init__(self, *those: Query, tie: int | None = None) -> None:
        json: Json = {"q": "dismax", "queries": all_json(queries(those))}
        super().__init__(json if tie is None else {**json, "tie": tie}, *those, tie=tie)


class Boost(Query):
    """What the query finds, with its score times `boost`."""

    __slots__ = ()

    def __init__(self, query: Query, boost: int) -> None:
        super().__init__({"q": "boost", "boost": boost, "query": a_query(query).to_json()}, query, boost)


class Const(Query):
    """What the query finds, each with this score."""

    __slots__ = ()

    def __init__(self, query: Query, score: int) -> None:
        super().__init__({"q": "const", "score": score, "query": a_query(query).to_json()}, query, score)
