"""Each reply that lines can give, through both clients: the examples' archives, and each name of a refusal."""
import asyncio
import contextlib
import inspect
import io
import json
import os
import unittest
import unittest.mock

import lafkundi
from lafkundi import Boost, Refusal, Term, fields, objects, refusals, requests, text

from . import refusals_of_page
from .rooms import BOOKS, DATA, ROOT, Room, book, command

CLASSES = inspect.getmembers(refusals, inspect.isclass)
# Of texts another test asks.
NAMES = {name for name, kind in CLASSES if issubclass(kind, Refusal) and kind not in (Refusal, lafkundi.NotRead)}
ARCHIVES = ("catalogue", "log", "mail", "page")
SEA = Term("title", "sea")


def lines_of(name):
    with open(f"{DATA}/{name}.jsonl", encoding="utf-8") as file:
        return file.read().splitlines()


def session(name):
    """The requests of an archive, each with its reply."""
    pairs = zip(lines_of(f"{name}.requests"), lines_of(f"{name}.replies"), strict=True)
    return [(json.loads(request), json.loads(reply)) for request, reply in pairs]


class Pages(unittest.TestCase):
    def test_each_refusal_is_told_as_requests_has_it(self):
        with open(f"{os.path.dirname(lafkundi.__file__)}/refusals.py", encoding="utf-8") as file:
            self.assertEqual(file.read(), refusals_of_page.printed(),
                             "print it anew: tests/refusals_of_page.py > lafkundi/refusals.py")

    def test_a_refusal_has_the_cure_for_its_request(self):
        self.assertEqual(refusals.Limit("Limit", "merge").cure, "a merge of fewer segments")
        self.assertIn("; or: ", refusals.Limit("Limit", "add").cure)
        self.assertEqual(refusals.Damaged("Damaged", "search").cure, "a copy of the file")
        self.assertIn("Cure: `create`;", str(refusals.NoIndex("NoIndex", "open")))
        self.assertIn("docs/REQUESTS.md", str(Refusal("OfTomorrow", "add")))


class Archives(Room):
    def test_replies_are_those_of_the_archives(self):
        for name in ARCHIVES:
            index = lafkundi.Index(self.path(f"{name}.idx"))
            self.addCleanup(index.close)
            for number, (request, reply) in enumerate(session(name), 1):
                with self.subTest(f"{name} {number}"):
                    try:
                        self.assertEqual(index.ask_as_it_is(request), reply)
                    except Refusal as refused:
                        self.assertEqual({"error": refused.name}, reply)
                        self.assertIs(type(refused), getattr(refusals, refused.name))

    def test_replies_to_tasks_are_those_of_the_archives(self):
        asyncio.run(self.ask_asyncio("catalogue"))

    async def ask_asyncio(self, name):
        """Asks all at once: the replies come in the order of the requests."""
        (first, _), *others = session(name)
        async with lafkundi.open_async(self.path(), schema=first["schema"], settings=first.get("settings")) as index:
            asked = [index.ask_as_it_is(request) for request, _ in others]
            replies = await asyncio.gather(*asked, return_exceptions=True)
        replies = [{"error": reply.name} if isinstance(reply, Refusal) else reply for reply in replies]
        self.assertEqual(replies, [reply for _, reply in others])


class Refusals(Room):
    """Each name of a refusal, as a line is answered by it."""

    def refused(self, name, call, *arguments, **named):
        with self.assertRaises(getattr(refusals, name)) as caught:
            call(*arguments, **named)
        self.assertEqual(caught.exception.name, name)
        self.seen.add(name)

    def test_every_name(self):
        self.seen = set()
        for name in ("opening", "adding", "asking", "writing", "memory", "device", "damage"):
            with self.subTest(name):
                getattr(self, name)()
        self.assertEqual(self.seen, NAMES)

    def opening(self):
        bare = lafkundi.Index(self.path("bare.idx"))
        self.addCleanup(bare.close)
        self.refused("NotOpen", bare.commit)
        self.refused("NoIndex", bare.reopen)
        self.refused("NoIndex", lafkundi.open, self.path("none.idx"))
        self.assertFalse(os.path.exists(self.path("none.idx")))
        for name, schema, settings in (
                ("BadSchema", [{"name": "title", "type": "texts", "options": {}}], None),
                ("BadSettings", BOOKS, {"docs_per_segment": 0}),
                ("UnknownTokenizer", [text("title", tokenizer="of tomorrow")], None),
                ("TooManyFields", [fields.boolean(f"f{number}", indexed=False) for number in range(65537)], None)):
            self.refused(name, lafkundi.create, self.path("none.idx"), schema, settings=settings)
        with open(self.path("other"), "w", encoding="utf-8") as file:
            file.write("notes")
        self.refused("NotEmpty", lafkundi.create, self.path("other"), BOOKS)
        self.refused("AlreadyOpen", self.books().reopen)

    def adding(self):
        kinds = [fields.number("n"), fields.date("sent"), fields.binary("mark"), fields.facet("label")]
        with lafkundi.create(self.path("kinds.idx"), kinds) as index:
            for name, document in (
                    ("NotAnObject", "[]"), ("TypeError", {"n": "640"}), ("OverflowError", {"n": -1}),
                    ("ParseError", {"sent": "7 October"}), ("InvalidBase64", {"mark": "-"}), ("FloatValue", {"n": 0.5}),
                    ("NotIndexable", {"sent": 5}), ("LineTooLong", {"mark": "A" * 16777216}), ("BadRequest", '{"n":')):
                self.refused(name, index.add, document)
            self.assertEqual(index.acknowledged.waiting_adds, 0)

    def asking(self):
        with lafkundi.create(self.path("asked.idx"), [
                text("title", record="freq"), text("note", indexed=False), objects("head")]) as index:
            deep = SEA
            for _ in range(65):
                deep = Boost(deep, 1)
            for name, query in (
                    ("BadQuery", Term("of tomorrow", "sea")), ("NotIndexed", Term("note", "sea")),
                    ("NoPositions", lafkundi.Phrase("title", "old", "sea")),
                    ("NotText", lafkundi.Phrase("head", 1, 2, path=["size"])),
                    ("OffsetTooLarge", lafkundi.Phrase("head", "a", "b", path=["x"], offsets=[0, 2**30 + 1])),
                    ("BadTieBreaker", lafkundi.DisMax(SEA, tie=1001)), ("ScoreTooLarge", Boost(SEA, 10**15 + 1)),
                    ("TooDeep", deep)):
                self.refused(name, index.search, query)
                self.refused(name, index.count, query)
                self.refused(name, index.counts, [SEA, query, SEA])
            self.refused("BadRequest", index.search, SEA, -1)
            self.refused("BadTerm", index.delete, Term("of tomorrow", "sea"))
            self.refused("BadRange", index.merge, 0, 1)
            self.assertEqual(index.count(SEA), 0)

    def writing(self):
        """A block that no document fits into; what stood goes on."""
        with lafkundi.create(self.path("blocks.idx"), BOOKS, settings={"block_size": 2**32 - 1}) as index:
            self.refused("Limit", index.add, book(1))
            index.commit()
            self.assertEqual(index.count(SEA), 0)

    def memory(self):
        """Memory runs out in an add; the index opens again, with what was committed."""
        with lafkundi.create(self.path("small.idx"), BOOKS, program=command("prlimit", "--as=40000000")) as index:
            index.add(book(1))
            index.commit()
            words = ({"title": " ".join(f"w{number}x{word}" for word in range(5000))} for number in range(10000))
            self.refused("OutOfMemory", index.add_many, words)
            self.refused("WriterClosed", index.add, book(2))
            index.reopen()
            self.assertEqual(index.count(lafkundi.All()), 1)

    def device(self):
        """A file past its limit, and one that is gone."""
        with lafkundi.create(self.path("full.idx"), BOOKS, program=command("prlimit", "--fsize=4096")) as index:
            index.add_many(book(number) for number in range(1000))
            self.refused("Device", index.commit)
            self.refused("Closed", index.add, book(1))
            index.reopen()
            self.assertEqual(index.count(lafkundi.All()), 0)
        with self.assertRaises(refusals.Closed), lafkundi.create(self.path("gone.idx"), BOOKS) as index:
            index.add(book(1))
            os.remove(self.path("gone.idx"))
            self.refused("Device", index.commit)

    def damage(self):
        with lafkundi.create(self.path("damaged.idx"), BOOKS) as index:
            index.add({"title": "sea sea wind"})
            index.commit()
        with open(self.path("damaged.idx"), "r+b") as file:
            file.seek(file.read().rindex(b"sea sea wind") + len(b"sea sea wind"))
            file.write(b"\xff")
        with lafkundi.open(self.path("damaged.idx")) as index:
            self.refused("Damaged", index.search, SEA)
            self.assertEqual(index.count(SEA), 1)


class Calls(Room):
    """What the calls of an index do, beyond the lines that they send."""

    def test_an_index_is_made_once(self):
        index = self.books()
        self.assertEqual(index.add(book(1)), None)
        self.assertEqual(index.search(SEA), [])
        index.commit()
        hits = index.search(SEA & Term("number", 1))
        self.assertEqual(hits, [lafkundi.Hit(60, {"title": ["the old sea, part 1"], "number": [1]})])
        self.assertEqual((hits[0].first("number"), hits[0].first("year"), hits[0].first("year", 1952)), (1, None, 1952))
        index.close()
        with lafkundi.open(self.path(), schema=[text("of another schema")]) as index:
            self.assertEqual(index.count(SEA), 1)

    def test_a_block_commits_at_its_end_and_not_after_an_exception(self):
        with lafkundi.open(self.path(), schema=BOOKS) as index:
            index.add(book(1))
        with self.assertRaises(ZeroDivisionError), lafkundi.open(self.path()) as index:
            index.add(book(2))
            raise ZeroDivisionError
        with lafkundi.open(self.path()) as index:
            self.assertEqual(index.counts([Term("number", 1), Term("number", 2)]), [1, 0])
            index.delete(Term("number", 1))
        index = lafkundi.open(self.path())
        self.assertEqual(index.count(lafkundi.All()), 0)
        index.add(book(3))
        index.close()
        index.close()
        with self.assertRaisesRegex(ValueError, "is closed"):
            index.count(SEA)
        with lafkundi.open(self.path()) as index:
            self.assertEqual(index.count(lafkundi.All()), 0)

    def test_documents_as_json_stand_on_one_line(self):
        index = self.books()
        index.add('{"title":"sea"}')
        index.add(b'{"title":"sea"}\n')
        for wrong in ('{"title":\n"sea"}', {"title": float("inf")}, {"title": "\ud800"}, {"title": object()}):
            with self.assertRaises((ValueError, TypeError)):
                index.add(wrong)
        index.commit()
        self.assertEqual(index.count(SEA), 2)

    def test_all_segments_are_merged(self):
        index = self.books()
        for number in range(20):
            index.add(book(number))
            index.commit()
        index.merge(3, 5)
        index.merge_all()
        with self.assertRaises(refusals.BadRange):
            index.merge(0, 2)
        self.assertEqual(index.count(SEA), 20)
        self.assertEqual(index.acknowledged.merges, 2)

    def test_more_segments_than_one_merge_takes(self):
        """Of a program that doesn't tell how many segments there are."""
        for where, name, value in ((requests, "MOST_SEGMENTS", 4), (lafkundi.Index, "_merge_listed", lambda _: False)):
            patch = unittest.mock.patch.object(where, name, value)
            patch.start()
            self.addCleanup(patch.stop)
        index = self.books()
        index.merge_all()
        for number in range(11):
            index.add(book(number))
            index.commit()
        index.merge_all()
        with self.assertRaises(refusals.BadRange):
            index.merge(0, 2)

    def test_a_term_is_wanted_where_a_term_is_deleted(self):
        with self.assertRaisesRegex(TypeError, "is no term"):
            self.books().delete(SEA & SEA)

    def test_readme(self):
        """The README of the package, its first block."""
        with open(f"{ROOT}/clients/python/README.md", encoding="utf-8") as file:
            block = file.read().split("```python\n")[1].partition("```")[0]
        os.chdir(self.room)
        self.addCleanup(os.chdir, ROOT)
        with contextlib.redirect_stdout(io.StringIO()) as printed:
            exec(compile(block, "README.md", "exec"), {})
        self.assertEqual(printed.getvalue().splitlines(), [f"30 Sea and wind, part {part}" for part in range(1, 4)])
