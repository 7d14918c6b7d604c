"""One exception for each name by which a line is refused, with what docs/REQUESTS.md says of it.

Printed by tests/refusals_of_page.py of the tables in docs/REQUESTS.md: print it anew where these change. Two of the
names, TypeError and OverflowError, are those of others in Python, so use them as `lafkundi.refusals.TypeError`. The
refusal of a text, NotRead, brings its own cure.
"""
from .errors import NotRead as NotRead, Refusal, Row


class BadRequest(Refusal):
    """no JSON, no UTF-8, no request, another key, a missing one, a number of another form."""

    rows = (
        Row("",
            "no JSON, no UTF-8, no request, another key, a missing one, a number of another form",
            "the keys of the table of requests and no other; whole numbers"),
    )


class LineTooLong(Refusal):
    """a line over 16777216 bytes."""

    rows = (
        Row("", "a line over 16777216 bytes", "shorter documents"),
    )


class NotOpen(Refusal):
    """no index stands."""

    rows = (
        Row("", "no index stands", "`open`, or `create`"),
    )


class AlreadyOpen(Refusal):
    """`create` or `open` while an index is ready."""

    rows = (
        Row("", "`create` or `open` while an index is ready", "none is needed: go on"),
    )


class WriterClosed(Refusal):
    """an add or a commit met `OutOfMemory` or `Limit`; searches still answer the last commit."""

    rows = (
        Row("",
            "an add or a commit met `OutOfMemory` or `Limit`; searches still answer the last commit",
            "`open`; add and delete again what waited"),
    )


class Closed(Refusal):
    """a commit or a merge met `Device`."""

    rows = (
        Row("", "a commit or a merge met `Device`", "mend the disk, `open`; look whether the commit is there"),
    )


class BadSchema(Refusal):
    """a schema of another form; a name that is empty, begins with `-` or comes twice."""

    rows = (
        Row("create open",
            "a schema of another form; a name that is empty, begins with `-` or comes twice",
            "the section on schemas"),
    )


class BadSettings(Refusal):
    """settings of another form or out of range; a weighted term that is none of the schema."""

    rows = (
        Row("create open",
            "settings of another form or out of range; a weighted term that is none of the schema",
            "the section on settings"),
    )


class TooManyFields(Refusal):
    """more than 65536 fields."""

    rows = (
        Row("create open", "more than 65536 fields", "one `json_object` field for many keys"),
    )


class UnknownTokenizer(Refusal):
    """a tokenizer that isn't `raw` or `default`."""

    rows = (
        Row("create open",
            "a tokenizer that isn't `raw` or `default`",
            "one of these; `lafkundi` knows `words18`, `plain18` and `english18` too; a program over the library may "
            "bring its own, as `crates/caseless_finder` does"),
    )


class NotEmpty(Refusal):
    """`create` over a file with a byte."""

    rows = (
        Row("create open", "`create` over a file with a byte", "`open`; or another file"),
    )


class NoIndex(Refusal):
    """`open` over a file without an index: fewer than ten bytes, or a closed first gate, as a `create` ..."""

    rows = (
        Row("create open",
            "`open` over a file without an index: fewer than ten bytes, or a closed first gate, as a `create` that "
            "was cut off may leave it",
            "`create`; where that is `NotEmpty`, remove the file first"),
    )


class Damaged(Refusal):
    """`open` over a file that is in no layout from some record on."""

    rows = (
        Row("create open",
            "`open` over a file that is in no layout from some record on",
            "a copy of the file. The library's `Index::open` tells the place of a gate: with a byte other than `a5` "
            "there, the file has the records before it"),
        Row("delete merge search count",
            "a search shows a stored document whose bytes in the file are damaged, or a merge can't tell such "
            "documents apart that it has to; they are looked at only then",
            "a copy of the file"),
    )


class NotAnObject(Refusal):
    """`doc` is no object."""

    rows = (
        Row("add", "`doc` is no object", "an object of fields"),
    )


class TypeError(Refusal):
    """a JSON value that the type doesn't take: a text for a number, `null`, a list in a list."""

    rows = (
        Row("add",
            "a JSON value that the type doesn't take: a text for a number, `null`, a list in a list",
            "the type's value; `coerce` for numbers and bools as texts"),
    )


class OverflowError(Refusal):
    """a number out of its type's range; a date outside 1677 to 2262."""

    rows = (
        Row("add",
            "a number out of its type's range; a date outside 1677 to 2262",
            "`i64` for numbers below 0; a text field"),
    )


class ParseError(Refusal):
    """a text that is no date, no path of a facet, no address; with `coerce` no number or bool."""

    rows = (
        Row("add",
            "a text that is no date, no path of a facet, no address; with `coerce` no number or bool",
            "a zone at the date's end, a slash before the facet's steps"),
    )


class InvalidBase64(Refusal):
    """a text that isn't standard base64."""

    rows = (
        Row("add", "a text that isn't standard base64", "`=` at its end, `+` and `/` in it"),
    )


class FloatValue(Refusal):
    """a number with a dot or an exponent, or past 64 bits, in a field of any type."""

    rows = (
        Row("add",
            "a number with a dot or an exponent, or past 64 bits, in a field of any type",
            "whole numbers of a smaller unit; a text"),
    )


class NotIndexable(Refusal):
    """a whole number in an indexed date field."""

    rows = (
        Row("add", "a whole number in an indexed date field", "a timestamp"),
    )


class BadTerm(Refusal):
    """a deletion's term of another form, of an unknown field or of another type's value."""

    rows = (
        Row("delete merge search count",
            "a deletion's term of another form, of an unknown field or of another type's value",
            "the section on terms"),
    )


class BadRange(Refusal):
    """a merge's `to` isn't above its `from`, or is above the number of segments."""

    rows = (
        Row("delete merge search count",
            "a merge's `to` isn't above its `from`, or is above the number of segments",
            "indices of segments that stand"),
    )


class BadQuery(Refusal):
    """a query of another form; one of its terms is none; a phrase of one term or of two fields; offsets ..."""

    rows = (
        Row("delete merge search count",
            "a query of another form; one of its terms is none; a phrase of one term or of two fields; offsets or a "
            "slop from 2^32 on",
            "the section on queries"),
    )


class NotIndexed(Refusal):
    """a term of a field that isn't indexed."""

    rows = (
        Row("delete merge search count",
            "a term of a field that isn't indexed",
            "`indexing`, or `indexed`, in the schema of a new index"),
    )


class NoPositions(Refusal):
    """a phrase over a field without positions."""

    rows = (
        Row("delete merge search count",
            "a phrase over a field without positions",
            "`\"record\":\"position\"` in its `indexing`"),
    )


class NotText(Refusal):
    """a phrase of JSON values that are no texts."""

    rows = (
        Row("delete merge search count", "a phrase of JSON values that are no texts", "a `bool` of terms"),
    )


class OffsetTooLarge(Refusal):
    """an offset above 2^30."""

    rows = (
        Row("delete merge search count",
            "an offset above 2^30",
            "offsets from 0, as far apart as the words are"),
    )


class BadTieBreaker(Refusal):
    """a `tie` above 1000."""

    rows = (
        Row("delete merge search count", "a `tie` above 1000", "thousandths"),
    )


class ScoreTooLarge(Refusal):
    """a boost, a score, a product of boosts, or what a query may score at most, above 10^15."""

    rows = (
        Row("delete merge search count",
            "a boost, a score, a product of boosts, or what a query may score at most, above 10^15",
            "smaller boosts and weights"),
    )


class TooDeep(Refusal):
    """more than 64 queries inside each other: 64 boosts round a term."""

    rows = (
        Row("delete merge search count",
            "more than 64 queries inside each other: 64 boosts round a term",
            "fewer of them"),
    )


class OutOfMemory(Refusal):
    """memory was refused."""

    rows = (
        Row("",
            "memory was refused",
            "more memory; smaller `docs_per_segment`",
            "what stood; of an `add` or a `commit` at most with its writer closed (`WriterClosed` from then on), and "
            "of an `open` or a `create`, where none was ready, no index"),
    )


class Limit(Refusal):
    """the block size, the bytes of the document's stored values and 8 are 2^32 or more."""

    rows = (
        Row("add",
            "the block size, the bytes of the document's stored values and 8 are 2^32 or more",
            "smaller `block_size`, shorter documents",
            "what stood"),
        Row("add",
            "its document has a position past 2147483647 or a count past 32 bits; or it fills a segment "
            "(`docs_per_segment`) whose documents are too much for its terms: 2^32 bytes of postings or of positions "
            "of a term, more than 4294967295 terms of a field, or sums past 32 or 64 bits",
            "shorter documents; `open`, then the same without it, or with smaller `docs_per_segment`",
            "what is committed, with the writer closed"),
        Row("commit",
            "the documents of its last segment are too much for its terms in the same way, there would be 2^32 "
            "segments, or the file would pass 2^63 bytes with a record of the documents that waited",
            "`open`, then the same",
            "what is committed, with the writer closed"),
        Row("merge",
            "the documents of its segments are more than 2147483647 or pass such a limit, or the file would pass 2^63"
            " bytes with a record of these documents",
            "a merge of fewer segments",
            "what stood"),
    )


class Device(Refusal):
    """the file can't be read, written or brought to the disk."""

    rows = (
        Row("",
            "the file can't be read, written or brought to the disk",
            "mend the disk, then `open`; where that is `Device` again, a new start of the program",
            "after a `commit` a closed index, whose file has the old commit or the new one; after a `merge` a closed "
            "index, whose file has the same documents; after a `create` or an `open` no index"),
    )
