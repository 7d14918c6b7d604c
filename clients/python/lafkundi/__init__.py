"""Full-text indexes of Lafkundi, from Python: it starts the program, and speaks the lines of docs/REQUESTS.md.

    import lafkundi
    from lafkundi import Term, text

    with lafkundi.open("books.idx", schema=[text("title", stored=True)]) as index:
        index.add({"title": "the old sea"})
        index.commit()
        for hit in index.search(Term("title", "sea")):
            print(hit.score, hit.first("title"))
"""
from . import refusals
from .async_index import AsyncIndex, open_async
from .errors import Acknowledged, Died, Error, NoProgram, NotAReply, NotRead, Refusal
from .fields import address, binary, boolean, date, facet, field, number, objects, text
from .index import Index, create, open
from .queries import All, Bool, Boost, Const, DisMax, Not, Nothing, Phrase, PhrasePrefix, Query, Term
from .requests import Answer, Hit, Passage, Standing

__all__ = [
    "Acknowledged", "All", "Answer", "AsyncIndex", "Bool", "Boost", "Const", "Died", "DisMax", "Error", "Hit",
    "Index", "NoProgram", "Not", "NotAReply", "NotRead", "Nothing", "Passage", "Phrase", "PhrasePrefix",
    "Query", "Refusal", "Standing", "Term", "address", "binary", "boolean", "create", "date", "facet", "field",
    "number", "objects", "open", "open_async", "refusals", "text",
]
