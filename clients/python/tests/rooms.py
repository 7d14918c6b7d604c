"""What the tests share: a folder for each, indexes in it, and whether hours or minutes are meant."""
import os
import random
import shutil
import tempfile
import unittest

import lafkundi
from lafkundi import number, program, text

ROOT = os.path.dirname(os.path.dirname(os.path.dirname(os.path.dirname(os.path.realpath(__file__)))))
DATA = f"{ROOT}/crates/example_cases/data"
IS_LONG = bool(os.environ.get("CLIENT_TEST_LONG"))
SEED = int(os.environ.get("CLIENT_TEST_SEED", "1"))
BOOKS = [text("title", stored=True), number("number", stored=True)]


def command(*before):
    """The words of the program under test, behind a command that starts it."""
    words = program.command_of(None, "")[:-1]
    return [*before, *words]


class Room(unittest.TestCase):
    """A test with a folder of its own, and a chance that the seed decides."""

    def setUp(self):
        self.room = tempfile.mkdtemp(prefix="client-")
        self.addCleanup(shutil.rmtree, self.room, ignore_errors=True)
        self.chance = random.Random(f"{SEED} {self.id()}")

    def path(self, name="books.idx"):
        return f"{self.room}/{name}"

    def books(self, **options):
        """The index of books, made where it is absent, and closed when the test ends."""
        index = lafkundi.open(self.path(), schema=BOOKS, **options)
        self.addCleanup(index.close)
        return index


def book(number_of_it):
    return {"title": f"the old sea, part {number_of_it}", "number": number_of_it}
