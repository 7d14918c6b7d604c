"""The example of a log: lines go in by batches, older days go, the file shrinks by night, and lines are found."""
import datetime
import json
import os
import subprocess
import sys

import lafkundi
from lafkundi import All

from .rooms import ROOT, Room

sys.path.insert(0, f"{ROOT}/examples/log")
import journal  # noqa: E402

NOON = datetime.datetime.now(journal.UTC).replace(hour=12, minute=0, second=0, microsecond=0)


def line(day, number, message="session opened", level=6):
    """A line of journalctl, of so many days ago."""
    moment = NOON - datetime.timedelta(days=day) + datetime.timedelta(seconds=number)
    return json.dumps({
        "__REALTIME_TIMESTAMP": str(int(moment.timestamp() * 10**6)), "MESSAGE": message, "PRIORITY": str(level),
        "_SYSTEMD_UNIT": f"unit{number % 3}.service", "_HOSTNAME": "quay", "__CURSOR": f"c{day}-{number}"}).encode()


class Log(Room):
    def keeper(self, **options):
        self.told = []
        keeper = journal.Keeper(self.path("log.idx"), 3, None, self.told.append, **options)
        self.addCleanup(lambda: keeper.index.close())
        return keeper

    def test_old_days_go_and_the_file_shrinks(self):
        keeper = self.keeper()
        keeper.begin_day(NOON.date())
        for day in (3, 2, 1, 0):
            keeper.take([line(day, number) for number in range(2000)])
        self.assertEqual(self.told, ["left out, too old: 2000"])
        self.assertEqual(keeper.index.count(All()), 6000)
        before = os.path.getsize(keeper.path)
        keeper.begin_day(NOON.date() + datetime.timedelta(days=1))
        self.assertEqual(self.told[1], "2000 lines of 1 days are deleted")
        self.assertLess(os.path.getsize(keeper.path), before * 3 / 4)
        self.assertEqual([count for _, count in journal.labels(keeper.index, 3)], [2000, 2000])
        self.assertEqual(journal.last_cursor(keeper.index), "c0-1999")
        keeper.begin_day(NOON.date() + datetime.timedelta(days=1))
        self.assertEqual(len(self.told), 3)

    def test_what_is_no_line_of_a_journal_is_told(self):
        keeper = self.keeper()
        odd = [b"", b"-- Boot --", b'{"MESSAGE":"x"}', b"[1]"]
        keeper.take([line(0, 1, [104, 105, 255]), line(0, 2, None), line(0, 3, "\ud83d"), *odd])
        self.assertEqual(self.told, ["left out, no lines of a journal: 4"])
        found = journal.last_lines(keeper.index, All(), 10)
        self.assertEqual([hit.first("message") for hit in found], ["hi\ufffd", "", "?"])

    def test_lines_are_found_in_their_order(self):
        keeper = self.keeper()
        for day in (1, 0):
            keeper.take([line(day, number, f"Session {number % 2} opened", number % 8) for number in range(50)])
        query = journal.query_of(["session", "1 opened"], "unit0.service", 3, f"{NOON:%Y-%m-%d}")
        found = journal.last_lines(keeper.index, query, 5)
        self.assertEqual([hit.first("time") for hit in found], sorted(hit.first("time") for hit in found))
        self.assertEqual([hit.first("cursor") for hit in found], ["c0-3", "c0-9", "c0-27", "c0-33"])

    def test_segments_of_many_commits_are_merged(self):
        keeper = self.keeper()
        for number in range(3 * journal.MANY_SEGMENTS + 5):
            keeper.take([line(0, number)])
        self.assertEqual((keeper.merged, keeper.small, keeper.index.acknowledged.merges), (3, 5, 3))
        with self.assertRaises(lafkundi.refusals.BadRange):
            keeper.index.merge(0, 9)
        keeper.index.merge(0, 8)
        self.assertEqual(keeper.index.count(All()), 3 * journal.MANY_SEGMENTS + 5)

    def test_lines_wait_no_longer_than_asked(self):
        read, write = os.pipe()
        self.addCleanup(os.close, read)
        batches = journal.batches(read, 3, 0.05)
        os.write(write, b"1\n2\n3\n4\n5")
        self.assertEqual([next(batches), next(batches)], [[b"1", b"2", b"3"], [b"4"]])
        os.write(write, b"6\n")
        os.close(write)
        self.assertEqual(list(batches), [[b"56"]])

    def test_called_as_a_program(self):
        words = [sys.executable, f"{ROOT}/examples/log/log"]
        index = self.path("log.idx")

        def call(*more, given=b""):
            return subprocess.run([*words, *more], input=given, stdout=subprocess.PIPE, check=True).stdout.decode()

        self.assertEqual(call("last", index), "")
        self.assertFalse(os.path.exists(index))
        call("keep", index, "--batch", "10", given=b"\n".join(line(0, number) for number in range(25)))
        self.assertEqual(call("last", index), "c0-24\n")
        self.assertEqual(len(call("find", index, "--unit", "unit1.service", "Session", "-k", "4").splitlines()), 4)
        with lafkundi.open(index) as kept:
            self.assertEqual(kept.count(All()), 25)
