"""A program that ends, isn't there, or writes what is no reply: what is told, and what the index then has."""
import asyncio
import os
import signal
import sys
import time
import unittest
import unittest.mock

import lafkundi
from lafkundi import All, Died, NoProgram, NotAReply, Term

from .rooms import BOOKS, IS_LONG, SEED, Room, book, command

PARTS = range(6)


def script():
    """A run of calls; each with whether it commits."""
    for number in PARTS:
        yield lambda index, number=number: index.add(book(number)), False
        if number % 2:
            yield lambda index, number=number: index.delete(Term("number", number - 1)), False
            yield lambda index: index.search(Term("title", "sea")), False
            yield lambda index: index.count(All()), False
            yield lambda index: index.commit(), True
    yield lambda index: index.merge(0, 2), False


def kill(index):
    """Kills the program of an index, and waits until it is gone."""
    os.kill(index.pid, signal.SIGKILL)
    try:
        os.waitid(os.P_PID, index.pid, os.WEXITED | os.WNOWAIT)
    except ChildProcessError:
        pass  # asyncio has waited for it


class Kills(Room):
    def committed(self):
        with lafkundi.open(self.path()) as index:
            return sorted(hit.first("number") for hit in index.search(All(), 100))

    def test_between_any_two_lines(self):
        calls = list(script())
        for stop in range(len(calls) + 1):
            with self.subTest(stop):
                self.kill_behind(calls, stop)
                os.remove(self.path())

    def kill_behind(self, calls, stop):
        index = lafkundi.open(self.path(), schema=BOOKS)
        commits = 0
        for call, commits_here in calls[:stop]:
            call(index)
            commits += commits_here
        kill(index)
        op = "merge" if stop == len(calls) else "count"
        with self.assertRaises(Died) as caught:
            index.merge(0, 2) if op == "merge" else index.count(All())
        died = caught.exception
        self.assertEqual((died.status, died.unanswered, died.last_words), (-9, {op: 1}, ""))
        self.assertEqual((died.acknowledged.commits, died.acknowledged.added, died.acknowledged.deletions),
                         (commits, 2 * commits, commits))
        self.assertIn("the program ended by SIGKILL", str(died))
        for call in (index.commit, lambda: index.add_many([book(7)]), lambda: index.search(All())):
            with self.assertRaises(Died):
                call()
        index.close()
        self.assertEqual(self.committed(), [number for number in PARTS if number % 2 and number < 2 * commits])

    def test_while_many_are_added(self):
        """The program is killed by what the documents are taken from; what was acknowledged is told."""
        index = self.books()
        index.add_many(book(number) for number in range(10))
        index.commit()

        def documents():
            for number in range(100000):
                if number == 50000:
                    kill(index)
                yield book(number)

        with self.assertRaises(Died) as caught:
            index.add_many(documents())
        told = caught.exception.acknowledged
        self.assertEqual((told.commits, told.added), (1, 10))
        self.assertLessEqual(told.waiting_adds, 50000)
        self.assertGreater(told.waiting_adds, 40000)
        self.assertLess(caught.exception.unanswered["add"], 10000)
        index.close()
        self.assertEqual(len(self.committed()), 10)

    def test_of_a_program_that_tasks_ask(self):
        asyncio.run(self.kill_asyncio())

    async def kill_asyncio(self):
        index = await lafkundi.open_async(self.path(), schema=BOOKS)
        await index.add_many(book(number) for number in range(10))
        await index.commit()
        kill(index)
        ended = await asyncio.gather(*(index.count(All()) for _ in range(3)), return_exceptions=True)
        self.assertEqual([type(each) for each in ended], [Died] * 3)
        self.assertEqual(ended[0].acknowledged.added, 10)
        with self.assertRaises(Died):
            await index.add_many(book(number) for number in range(10000))
        await index.close()

    @unittest.skipUnless(IS_LONG, "it kills at random moments")
    def test_at_random_moments(self):
        print(f"seed {SEED}")
        for round_number in range(300):
            with self.subTest(round_number):
                self.kill_at_random()

    def kill_at_random(self):
        """Kills it while batches are added and committed: the index has those acknowledged, or one more."""
        if os.path.exists(self.path()):
            os.remove(self.path())
        index = lafkundi.open(self.path(), schema=BOOKS)
        end = time.monotonic() + self.chance.random() / 5

        def documents():
            for number in range(500):
                if time.monotonic() > end:
                    kill(index)
                yield book(number)

        with self.assertRaises(Died) as caught:
            while True:
                index.add_many(documents())
                index.commit()
        index.close()
        told = caught.exception
        with lafkundi.open(self.path()) as index:
            count = index.count(All())
        added = told.acknowledged.added
        self.assertIn(count, (added, added + 500 * told.unanswered.get("commit", 0)))


class Ends(Room):
    def test_last_words_are_told(self):
        first = self.books()
        for path in (self.path(), self.path("absent/books.idx"), self.room):
            with self.subTest(path), self.assertRaises(Died) as caught:
                lafkundi.open(path, schema=BOOKS)
            self.assertRegex(str(caught.exception), "device fault|another program has it")
            self.assertIn("Not answered: 1 open", str(caught.exception))
            self.assertGreater(caught.exception.status, 0)
        self.assertEqual(first.count(All()), 0)

    def test_only_the_end_of_many_words_is_told(self):
        talks = "import sys; sys.stderr.write('word ' * 100000 + 'the end'); sys.exit(3)"
        with self.assertRaises(Died) as caught:
            lafkundi.open(self.path(), schema=BOOKS, program=[sys.executable, "-c", talks])
        self.assertEqual(caught.exception.status, 3)
        self.assertTrue(caught.exception.last_words.endswith("word the end"))
        self.assertLess(len(caught.exception.last_words), 3000)

    def test_a_program_that_is_absent(self):
        for program in ("of tomorrow", self.path("absent"), [self.room]):
            with self.subTest(program), self.assertRaisesRegex(NoProgram, "Name one by program=|can't be started"):
                lafkundi.open(self.path(), schema=BOOKS, program=program)
        with open(self.path("text"), "w", encoding="utf-8") as file:
            file.write("\0")
        os.chmod(self.path("text"), 0o755)
        for make in (lambda: lafkundi.open(self.path(), schema=BOOKS, program=self.path("text")), self.start_asyncio):
            with self.assertRaisesRegex(NoProgram, "can't be started"):
                make()

    def start_asyncio(self):
        async def start():
            await lafkundi.open_async(self.path(), schema=BOOKS, program=self.path("text"))
        asyncio.run(start())

    def test_a_program_by_the_environment(self):
        with unittest.mock.patch.dict(os.environ, LAFKUNDI=" ".join(command("env", "OF=tomorrow"))):
            self.assertEqual(self.books().count(All()), 0)
        link = self.path("lafkundi")
        os.symlink("/bin/true", link)
        self.assertEqual(lafkundi.program.command_of(link, "-a.idx"), [link, "serve", "./-a.idx"])
        words = [link, "serve", "--read"]
        self.assertEqual(lafkundi.program.command_of(words, "a.idx"), [*words, "a.idx"])

    def test_what_is_no_reply_is_told(self):
        for text in ("welcome", "[]", '{"ok":true}\\n{"ok":true}'):
            with self.subTest(text), self.assertRaisesRegex(NotAReply, "welcome|no reply|no request waits"):
                words = ["sh", "-c", f"read line; printf '{text}\\n'; cat > /dev/null"]
                index = lafkundi.open(self.path(), schema=BOOKS, program=words)
                index.count(All())

    def test_an_interrupt_while_it_waits_leaves_the_index_open(self):
        """What the interrupted call asked is answered, and goes to no other call."""
        index = self.books()
        index.add_many(book(number) for number in range(3))
        index.commit()
        os.kill(index.pid, signal.SIGSTOP)
        before = signal.signal(signal.SIGALRM, self.interrupt)
        self.addCleanup(signal.signal, signal.SIGALRM, before)
        signal.setitimer(signal.ITIMER_REAL, 0.1)
        with self.assertRaises(KeyboardInterrupt):
            index.search(All())
        os.kill(index.pid, signal.SIGCONT)
        self.assertEqual(index.counts([All(), Term("number", 1)]), [3, 1])

    @staticmethod
    def interrupt(*_):
        raise KeyboardInterrupt

    def test_another_process_opens_one_of_its_own(self):
        index = self.books()
        child = os.fork()
        if not child:
            try:
                index.count(All())
            except lafkundi.Error:
                os._exit(7)
            os._exit(0)
        self.assertEqual(os.waitstatus_to_exitcode(os.waitpid(child, 0)[1]), 7)
        self.assertEqual(index.count(All()), 0)
