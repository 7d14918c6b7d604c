"""Texts that a person writes, and what stands: the lines that `lafkundi serve` has beside those of `index`."""
import asyncio

import lafkundi
from lafkundi import All, NotRead, Passage, Standing, Term, refusals, text

from .rooms import BOOKS, Room, book

SCHEMA = [*BOOKS, text("notes", stored=True)]
DOCUMENTS = (
    {"title": "The old sea", "number": 1, "notes": "Wind on the old quay. " + "Nothing else is said of it. " * 20},
    {"title": "Sea sea wind", "number": 2}, {"title": "A harbour", "number": 3, "notes": "The sea is far."},
)


class Texts(Room):
    def setUp(self):
        super().setUp()
        self.index = lafkundi.open(self.path(), schema=SCHEMA)
        self.addCleanup(self.index.close)
        try:
            self.index.standing()
        except refusals.BadRequest:
            self.skipTest("this program answers no texts")
        self.index.add_many(DOCUMENTS)
        self.index.commit()

    def test_a_text_finds_hits_with_passages(self):
        matches, hits = self.index.ask("title:sea", 1)
        self.assertEqual((matches, [hit.first("number") for hit in hits]), (2, [2]))
        self.assertEqual(hits[0].passages, {"title": ("", "Sea", " ", "sea", " wind")})
        self.assertEqual(str(hits[0].passages["title"]), "[Sea] [sea] wind")
        pieces = [("Sea", True), (" ", False), ("sea", True), (" wind", False)]
        self.assertEqual(hits[0].passages["title"].pieces(), pieces)
        [hit] = self.index.ask('"old quay" -harbour').hits
        self.assertIn("[old quay]", str(hit.passages["notes"]).replace("] [", " "))
        self.assertLess(len(str(hit.passages["notes"])), 300)
        self.assertEqual(self.index.search(Term("number", 2))[0].passages, {})

    def test_hits_are_left_out_first(self):
        all_hits = self.index.ask("sea OR harbour", 10).hits
        self.assertEqual(len(all_hits), 3)
        self.assertEqual(self.index.ask("sea OR harbour", 2, start=1).hits, all_hits[1:])
        self.assertEqual(self.index.ask("sea OR harbour", 0), (3, []))
        self.assertEqual(self.index.count("sea -wind"), 1)
        self.assertEqual(self.index.counts(["sea", Term("title", "sea"), "title:sea"]), [3, 2, 2])
        self.assertEqual(self.index.ask("sea OR harbour", start=3), (3, []))

    def test_options_score_otherwise(self):
        scores = [[hit.score for hit in self.index.ask("sea", **options).hits]
                  for options in ({}, {"flat": True}, {"best_field": True}, {"flat": True, "best_field": True})]
        self.assertEqual([len(each) for each in scores], [3] * 4)
        self.assertNotEqual(scores[0], scores[1])

    def test_a_text_that_is_not_read_has_its_cure(self):
        for asked, at, cure in (("sea (wind", 4, "write `)`"), ("", 0, "write a word"),
                                ("of:sea", 0, "There are: title")):
            with self.subTest(asked), self.assertRaises(NotRead) as caught:
                self.index.ask(asked)
            self.assertEqual((caught.exception.name, caught.exception.at), ("NotRead", at))
            self.assertIn(cure, caught.exception.cure)
            self.assertIn(f"NotRead (ask), at byte {at}: ", str(caught.exception))
        with self.assertRaises(refusals.NotRead):
            self.index.ask("(")
        with self.assertRaises(refusals.BadRequest):
            self.index.ask("sea", -1)
        with self.assertRaises(refusals.NotOpen):
            bare = lafkundi.Index(self.path("bare.idx"))
            self.addCleanup(bare.close)
            bare.ask("sea")

    def test_what_stands(self):
        self.assertEqual(self.index.standing(), Standing(3, 1))
        self.index.add(book(4))
        self.assertEqual(self.index.standing(), (3, 1))
        self.index.commit()
        self.index.delete(Term("number", 1))
        self.index.commit()
        self.assertEqual(self.index.standing().segments, 2)
        self.index.merge_all()
        self.assertEqual(self.index.standing(), (3, 1))
        self.assertEqual(self.index.acknowledged.merges, 1)
        self.assertEqual(self.index.count(All()), 3)

    def test_tasks_ask_texts(self):
        self.index.close()
        asyncio.run(self.ask_asyncio())

    async def ask_asyncio(self):
        async with lafkundi.open_async(self.path()) as index:
            matches, hits = await index.ask("sea", 1, start=1)
            self.assertEqual((matches, len(hits)), (3, 1))
            self.assertIsInstance(next(iter(hits[0].passages.values())), Passage)
            with self.assertRaises(NotRead):
                await index.ask("(")
            await index.merge_all()
            self.assertEqual(await index.standing(), (3, 1))
