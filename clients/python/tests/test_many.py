"""Many documents, with the memory that the client takes for them; and threads and tasks that share an index."""
import asyncio
import os
import subprocess
import sys
import threading
import time
import unittest

import lafkundi
from lafkundi import All, Term, refusals, text

from .rooms import BOOKS, IS_LONG, ROOT, Room, book

MANY = 1000000 if IS_LONG else 20000
# What the client may take for them, in megabytes; the lines are thirty megabytes or more.
MOST_MEGABYTES = 12
# Run by itself, so that its greatest memory is that of the adds.
ADDER = """
import lafkundi, resource, sys, time
from lafkundi import text, number
taken = lambda: resource.getrusage(resource.RUSAGE_SELF).ru_maxrss / 1024
path, count, size = sys.argv[1], int(sys.argv[2]), int(sys.argv[3])
words = "the old sea and its winds ".split() * 400
book = lambda number: {"title": " ".join(words[number % 6:number % 6 + size]), "number": number}
with lafkundi.open(path, schema=[text("title"), number("number")]) as index:
    index.add_many([book(0)] * 2000)
    before, began = taken(), time.monotonic()
    added = index.add_many(book(number) for number in range(count))
    print(added, taken() - before, time.monotonic() - began)
"""


class Many(Room):
    def test_many_are_added_in_little_memory(self):
        words = [sys.executable, "-c", ADDER, self.path(), str(MANY), "300" if MANY < 100000 else "100"]
        environment = {**os.environ, "PYTHONPATH": f"{ROOT}/clients/python"}
        said = subprocess.run(words, stdout=subprocess.PIPE, env=environment, text=True, check=True).stdout
        added, megabytes, seconds = said.split()
        if IS_LONG:
            print(f"{added} documents in {float(seconds):.1f} s, {float(megabytes):.1f} MB more than at first")
        self.assertEqual(int(added), MANY)
        self.assertLess(float(megabytes), MOST_MEGABYTES)
        with lafkundi.open(self.path()) as index:
            self.assertEqual(index.count(All()), MANY + 2000)

    def test_lines_of_all_lengths(self):
        """From a few bytes to the longest, and to one that is refused, between others that are under way."""
        lengths = [0, 1, 100, 70000, 16777216 - 60, 16777217, 5, 1000000, 131072, 131073, 3]
        index = lafkundi.open(self.path(), schema=[text("title", tokenizer="raw", indexed=False)])
        self.addCleanup(index.close)
        bad = []
        documents = ({"title": "x" * length} for length in [*[1] * 3000, *lengths, *[1] * 3000])
        added = index.add_many(documents, refused=bad.append)
        self.assertEqual(added, 6000 + len(lengths) - 1)
        self.assertEqual([(type(each), each.number) for each in bad], [(refusals.LineTooLong, 3005)])
        self.assertEqual(index.acknowledged.waiting_adds, added)

    def test_replies_that_are_long(self):
        """Replies of megabytes, to requests that are all sent before one is read."""
        index = lafkundi.open(self.path(), schema=[text("title", stored=True)])
        self.addCleanup(index.close)
        index.add_many({"title": f"sea {'x' * 10000}"} for _ in range(300))
        index.commit()
        sent = [lafkundi.requests.search(Term("title", "sea"), 300)] * 8
        replies = [lafkundi.requests.hits_of(reply) for reply in index._ask_all(sent)]
        self.assertEqual([sum(len(hit.first("title")) for hit in hits) for hits in replies], [300 * 10004] * 8)
        self.assertEqual(index.counts([Term("title", "sea")] * 20000), [300] * 20000)

    def test_the_first_refusal_ends_the_adds(self):
        index = self.books()
        read = 0

        def documents():
            nonlocal read
            for number in range(50000):
                read += 1
                yield book(number) if number not in (100, 101) else {"number": "sea"}

        with self.assertRaises(refusals.TypeError) as caught:
            index.add_many(documents())
        self.assertEqual(caught.exception.number, 100)
        self.assertLess(read, 20000)
        self.assertEqual(caught.exception.added, index.acknowledged.waiting_adds)
        self.assertIn("document 100", str(caught.exception))

    def test_documents_that_end_in_an_exception(self):
        index = self.books()

        def documents():
            yield from (book(number) for number in range(5000))
            raise ZeroDivisionError

        with self.assertRaises(ZeroDivisionError):
            index.add_many(documents())
        index.commit()
        self.assertEqual(index.count(All()), index.acknowledged.added)


class Sharing(Room):
    def run_threads(self, *calls):
        """Runs calls in threads of their own; what one of them raises is raised."""
        wrong = []

        def run(call):
            try:
                call()
            except BaseException as why:
                wrong.append(why)

        threads = [threading.Thread(target=run, args=[call]) for call in calls]
        for thread in threads:
            thread.start()
        for thread in threads:
            thread.join()
        if wrong:
            raise wrong[0]

    def test_two_readers_and_a_writer(self):
        """What a reader finds is what some commit left, no less than the commit before."""
        index, sizes, ended = self.books(), [0], threading.Event()

        def write():
            try:
                for size in range(500, 5001, 500):
                    index.add_many(book(number) for number in range(size - 500, size))
                    sizes.append(size)
                    index.commit()
            finally:
                ended.set()

        def read():
            least = 0
            while not ended.is_set():
                count = index.count(Term("title", "sea"))
                self.assertIn(count, sizes)
                self.assertGreaterEqual(count, least)
                least = count
                hits = index.search(Term("number", count - 1)) if count else []
                self.assertEqual([hit.first("number") for hit in hits], [count - 1] if count else [])

        self.run_threads(write, read, read)
        self.assertEqual(index.count(All()), 5000)

    def test_each_thread_gets_its_own_replies(self):
        index = self.books()
        index.add_many(book(number) for number in range(200))
        index.commit()

        def look(first):
            for number in range(first, 200, 8):
                hits = index.search(Term("number", number), 2)
                self.assertEqual([hit.first("number") for hit in hits], [number])
                self.assertEqual(index.counts([Term("number", number), Term("number", -1 + 10**6)]), [1, 0])

        self.run_threads(*(lambda first=first: look(first) for first in range(8)))

    def test_searches_have_their_turn_while_many_are_added(self):
        """A search isn't kept back until the adds end."""
        index, found = self.books(), []

        def documents():
            for number in range(30000):
                yield book(number)
                if number % 1000 == 0:
                    time.sleep(0.001)

        def search():
            while not found or len(found) < 5:
                found.append((index.count(All()), index.acknowledged.waiting_adds))

        self.run_threads(lambda: index.add_many(documents()), search)
        self.assertLess(found[0][1], 30000)

    def test_documents_that_ask_the_index(self):
        index = self.books()
        self.assertEqual(index.add_many(book(index.count(All())) for _ in range(3)), 3)

    def test_tasks_share_an_index(self):
        asyncio.run(self.share_asyncio())

    async def share_asyncio(self):
        async def documents():
            for number in range(20000):
                yield book(number)

        async with lafkundi.open_async(self.path(), schema=BOOKS) as index:
            async def read():
                return [await index.count(Term("title", "sea")) for _ in range(20)]
            added, *counts = await asyncio.gather(index.add_many(documents()), read(), read())
            self.assertEqual((added, counts), (20000, [[0] * 20] * 2))
            await index.commit()
            self.assertEqual(await index.counts([All(), Term("number", 7)]), [20000, 1])
            [hit] = await index.search(Term("number", 7))
            self.assertEqual(hit.first("title"), "the old sea, part 7")
            bad = []
            self.assertEqual(await index.add_many([{"number": "x"}, book(1)], refused=bad.append), 1)
            with self.assertRaises(refusals.TypeError) as caught:
                await index.add_many([book(1), {"number": "x"}])
            self.assertEqual((bad[0].number, caught.exception.number, caught.exception.added), (0, 1, 1))
            await index.delete(Term("number", 7))
        async with lafkundi.open_async(self.path()) as index:
            self.assertEqual(await index.count(All()), 20001)
            await index.add(book(7))
            await index.commit()
            await index.merge(0, 2)
            await index.merge_all()
            with self.assertRaises(refusals.AlreadyOpen):
                await index.reopen()
            with self.assertRaisesRegex(ValueError, "finds nothing by itself"):
                await index.search(~All())

    def test_a_task_that_is_cancelled_takes_no_reply_of_others(self):
        asyncio.run(self.cancel_asyncio())

    async def cancel_asyncio(self):
        async with lafkundi.open_async(self.path(), schema=BOOKS) as index:
            await index.add(book(1))
            await index.commit()
            asked = asyncio.create_task(index.search(All()))
            await asyncio.sleep(0)
            asked.cancel()
            self.assertEqual(await index.count(All()), 1)
            self.assertTrue(asked.cancelled())


if __name__ == "__main__":
    unittest.main()
