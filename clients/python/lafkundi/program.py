"""The program that answers lines: which one it is, how it is started, and what it leaves when it ends."""
from __future__ import annotations

import os
import shlex
import shutil
import tempfile
from collections.abc import Sequence
from typing import IO, Any

from .errors import NoProgram

Program = str | os.PathLike[str] | Sequence[str] | None

# Memory that the program lets go of goes back to the system early, as docs/REQUESTS.md says.
MEMORY = {"MALLOC_TRIM_THRESHOLD_": "2097152", "MALLOC_MMAP_THRESHOLD_": "2097152"}
LAST_WORDS = 2000


def words_of(program: Program) -> list[str]:
    """The words of a program that is named: a path, a list of words, else LAFKUNDI of the environment."""
    if program is None:
        return shlex.split(os.environ.get("LAFKUNDI", "")) or ["lafkundi"]
    if isinstance(program, (str, os.PathLike)):
        return [os.fspath(program)]
    return [os.fspath(word) for word in program]


def command_of(program: Program, path: str | os.PathLike[str]) -> list[str]:
    """The command that answers lines over the index of a file."""
    words = words_of(program)
    found = words and shutil.which(words[0])
    if not found:
        raise NoProgram(f"there is no program {' '.join(words)!r}. Name one by program=.. or by LAFKUNDI in the "
                        "environment: `./lafkundi` of a clone, or a copy of what `./lafkundi --prove` builds")
    if len(words) == 1 and os.path.basename(found) == "lafkundi":
        words.append("serve")
    file = os.fspath(path)
    return [found, *words[1:], f"./{file}" if file.startswith("-") else file]


def environment() -> dict[str, str]:
    return {**MEMORY, **os.environ}


def starting() -> dict[str, Any]:
    """How it is started: not ended by an interrupt from the terminal, and with SIGXFSZ ignored, as Python has it."""
    return {"env": environment(), "process_group": 0, "restore_signals": False}


def error_file() -> IO[bytes]:
    """A file without a name for what the program writes to standard error, which so never fills a pipe."""
    return tempfile.TemporaryFile(prefix="lafkundi-")


def last_words(file: IO[bytes]) -> str:
    """The end of what it wrote to standard error."""
    length = file.seek(0, os.SEEK_END)
    file.seek(max(0, length - LAST_WORDS))
    return file.read().decode("utf-8", "replace").strip()
