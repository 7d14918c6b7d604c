"""Queries as values: the JSON that they print, what `&`, `|` and `~` make, and what is refused with what to write."""
import datetime
import ipaddress
import json
import unittest

from lafkundi import All, Bool, Boost, Const, DisMax, Nothing, Phrase, PhrasePrefix, Term
from lafkundi.lines import json_of

PHRASE = Phrase("body", "old", "quay")
SEA, OLD, QUAY = Term("title", "sea"), Term("title", "old"), Term("body", "quay")
SEA_JSON = '{"q":"term","field":"title","value":"sea"}'
OLD_JSON = '{"q":"term","field":"title","value":"old"}'
QUAY_JSON = '{"q":"term","field":"body","value":"quay"}'

PRINTED = (
    (SEA, SEA_JSON),
    (Term("head", 640, path=["size"]), '{"q":"term","field":"head","path":["size"],"value":640}'),
    (Term("title", "sea", record="basic"), '{"q":"term","field":"title","value":"sea","record":"basic"}'),
    (All(), '{"q":"all"}'),
    (Nothing(), '{"q":"none"}'),
    (Phrase("body", "old", "quay"),
     '{"q":"phrase","terms":[{"field":"body","value":"old"},{"field":"body","value":"quay"}]}'),
    (Phrase("body", "old", "quay", offsets=[3, 0], slop=1),
     '{"q":"phrase","terms":[{"field":"body","value":"old"},{"field":"body","value":"quay"}],'
     '"offsets":[3,0],"slop":1}'),
    (PhrasePrefix("head", "a", "b", path=["x"], offsets=[0, 2]),
     '{"q":"phrase_prefix","terms":[{"field":"head","path":["x"],"value":"a"},'
     '{"field":"head","path":["x"],"value":"b"}],"offsets":[0,2]}'),
    (Bool(must=[SEA], should=[OLD], must_not=[QUAY], minimum=1),
     f'{{"q":"bool","must":[{SEA_JSON}],"should":[{OLD_JSON}],"must_not":[{QUAY_JSON}],"min":1}}'),
    (Bool(), '{"q":"bool"}'),
    (DisMax(SEA, OLD, tie=100), f'{{"q":"dismax","queries":[{SEA_JSON},{OLD_JSON}],"tie":100}}'),
    (DisMax(), '{"q":"dismax","queries":[]}'),
    (Boost(SEA, 3), f'{{"q":"boost","boost":3,"query":{SEA_JSON}}}'),
    (Const(SEA, 7), f'{{"q":"const","score":7,"query":{SEA_JSON}}}'),
    (SEA & ~PHRASE, f'{{"q":"bool","must":[{SEA_JSON}],"must_not":[{PHRASE}]}}'),
    (SEA & OLD & QUAY, f'{{"q":"bool","must":[{SEA_JSON},{OLD_JSON},{QUAY_JSON}]}}'),
    (SEA & (OLD & ~QUAY), f'{{"q":"bool","must":[{SEA_JSON},{OLD_JSON}],"must_not":[{QUAY_JSON}]}}'),
    (~QUAY & SEA, f'{{"q":"bool","must":[{SEA_JSON}],"must_not":[{QUAY_JSON}]}}'),
    (SEA & (~OLD & ~QUAY), f'{{"q":"bool","must":[{SEA_JSON}],"must_not":[{OLD_JSON},{QUAY_JSON}]}}'),
    (SEA | OLD | QUAY, f'{{"q":"bool","should":[{SEA_JSON},{OLD_JSON},{QUAY_JSON}]}}'),
    (SEA & (OLD | QUAY), f'{{"q":"bool","must":[{SEA_JSON},{{"q":"bool","should":[{OLD_JSON},{QUAY_JSON}]}}]}}'),
    ((SEA & OLD) | QUAY, f'{{"q":"bool","should":[{{"q":"bool","must":[{SEA_JSON},{OLD_JSON}]}},{QUAY_JSON}]}}'),
    (~~SEA, SEA_JSON),
    # Clauses are joined only where nothing else is asked of them.
    (Bool() & SEA, f'{{"q":"bool","must":[{{"q":"bool"}},{SEA_JSON}]}}'),
    (Bool(should=[SEA, OLD], minimum=2) | QUAY,
     f'{{"q":"bool","should":[{{"q":"bool","should":[{SEA_JSON},{OLD_JSON}],"min":2}},{QUAY_JSON}]}}'),
    (Bool(must=[SEA], should=[OLD]) & QUAY,
     f'{{"q":"bool","must":[{{"q":"bool","must":[{SEA_JSON}],"should":[{OLD_JSON}]}},{QUAY_JSON}]}}'),
)

REFUSED = (
    (lambda: str(~SEA), "~Term('title', 'sea') finds nothing by itself: write All() & ~Term('title', 'sea')"),
    (lambda: ~SEA | OLD, "write (All() & ~Term('title', 'sea')) | Term('title', 'old')"),
    (lambda: OLD | ~SEA, "write Term('title', 'old') | (All() & ~Term('title', 'sea'))"),
    (lambda: Boost(~SEA, 2), "write All() & ~Term('title', 'sea')"),
    (lambda: Const(~SEA, 2), "write All() & ~Term('title', 'sea')"),
    (lambda: DisMax(~SEA), "write All() & ~Term('title', 'sea')"),
    (lambda: Bool(must=[~SEA]), "write All() & ~Term('title', 'sea')"),
    (lambda: Bool(must_not=[SEA]), "write must=[All()] beside it"),
    (lambda: Bool(must=SEA), "write a list: [Term('title', 'sea')]"),
    (lambda: SEA & "old", "'old' is no query: write Term(field, value)"),
    (lambda: Term("head", "crew", path="list"), "write a list of keys: path=['list']"),
)


class Queries(unittest.TestCase):
    def test_each_prints_as_its_json(self):
        for query, printed in PRINTED:
            with self.subTest(repr(query)):
                self.assertEqual(str(query), printed)
                self.assertEqual(json.loads(printed), query.to_json())

    def test_what_finds_nothing_is_refused_with_what_to_write(self):
        for make, cure in REFUSED:
            with self.subTest(cure), self.assertRaises((ValueError, TypeError)) as caught:
                make()
            self.assertIn(cure, str(caught.exception))

    def test_written_as_python_reads_it(self):
        for query, _ in PRINTED:
            self.assertEqual(eval(repr(query)), query)
            self.assertEqual(hash(eval(repr(query))), hash(query))
        self.assertNotEqual(SEA, OLD)

    def test_values_without_a_form_in_json(self):
        day = datetime.datetime(2025, 10, 7, 18, tzinfo=datetime.timezone.utc)
        self.assertEqual(json_of([day, b"\x00\xff", ipaddress.ip_address("10.0.0.1"), ("a", 1)]),
                         '["2025-10-07T18:00:00+00:00","AP8=","10.0.0.1",["a",1]]')
        for value, cure in ((day.replace(tzinfo=None), "2025-10-07T18:00:00+00:00"), (day.date(), "/2025/10/07")):
            with self.assertRaises((ValueError, TypeError)) as caught:
                json_of(value)
            self.assertIn(cure, str(caught.exception))
        for value in (float("nan"), {1, 2}, object()):
            with self.assertRaises((ValueError, TypeError)):
                json_of(value)
