"""A program with its two pipes: what is to be written and what comes back are moved at once, so that neither fills."""
from __future__ import annotations

import fcntl
import os
import select
import subprocess
from collections.abc import Callable

from .errors import NoProgram
from .program import error_file, last_words, starting

READ = 1 << 18
# What the pipe of requests holds, where the system lets it: the program works on that while more is made.
PIPE = 1 << 18


def widen(pipe: int) -> None:
    """Has a pipe hold more than it does by itself."""
    try:
        fcntl.fcntl(pipe, fcntl.F_SETPIPE_SZ, PIPE)
    except (OSError, AttributeError):
        pass


class Pipes:
    """A running program. `out` is what isn't written yet."""

    def __init__(self, command: list[str]) -> None:
        self.errors = error_file()
        try:
            self.process: subprocess.Popen[bytes] = subprocess.Popen(
                command, stdin=subprocess.PIPE, stdout=subprocess.PIPE, stderr=self.errors, bufsize=0, **starting())
        except OSError as why:
            self.errors.close()
            raise NoProgram(f"{command[0]} can't be started: {why.strerror}") from why
        assert self.process.stdin and self.process.stdout
        self.stdin, self.stdout = self.process.stdin, self.process.stdout
        self.input, self.output = self.stdin.fileno(), self.stdout.fileno()
        os.set_blocking(self.input, False)
        widen(self.input)
        self.out = bytearray()
        self.to_read, self.to_move = select.poll(), select.poll()
        self.to_read.register(self.output, select.POLLIN)
        self.to_move.register(self.output, select.POLLIN)
        self.to_move.register(self.input, select.POLLOUT)

    def write(self) -> None:
        """Writes as much as the pipe takes; of a program that is gone nothing more is written."""
        try:
            with memoryview(self.out) as view:
                written = os.write(self.input, view)
            del self.out[:written]
        except BlockingIOError:
            pass
        except BrokenPipeError:
            self.out.clear()

    def wait(self) -> bool:
        """Waits until something can be moved; whether something can be read, as at the end too."""
        poll = self.to_move if self.out else self.to_read
        return any(file == self.output for file, _ in poll.poll())

    def read(self) -> bytes:
        """What has come, at least a byte; nothing at the end."""
        return os.read(self.output, READ)

    def finish(self, take: Callable[[bytes], None]) -> tuple[int, str]:
        """Ends the input, takes what is still answered, and waits; the status, and the last words."""
        self.stdin.close()
        while data := self.read():
            take(data)
        return self.end()

    def end(self) -> tuple[int, str]:
        """Waits for a program that has ended its output; the status, and the last words."""
        self.stdin.close()
        try:
            self.process.wait(10)
        except subprocess.TimeoutExpired:
            self.process.kill()
        status, words = self.process.wait(), last_words(self.errors)
        self.stdout.close()
        self.errors.close()
        return status, words

    def kill(self) -> tuple[int, str]:
        self.process.kill()
        return self.end()
