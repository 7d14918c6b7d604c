#!/usr/bin/env python3
"""Compiles a C source to a library that a program loads before the C library (LD_PRELOAD).

usage: tools/library.py SOURCE OUT

The compiler is the kit's clang, or cc where there is no `rt`. The kit has no headers, so that a source includes none and
declares what it calls; what it doesn't define is found in the C library when it is loaded. Without a compiler the status
is 2. tools/kill-test and tools/memory-test import this.
"""
import os
import shutil
import subprocess
import sys

WORDS = ["-shared", "-fPIC", "-O1", "-nostdlib", "-fno-builtin"]


def compiler():
    """The words that call a compiler."""
    rt = shutil.which("rt")
    clang = rt and os.path.join(os.path.dirname(os.path.dirname(os.path.realpath(rt))), "toolchain", "bin", "clang")
    if clang and os.access(clang, os.X_OK):
        return [clang, "-fuse-ld=lld"]
    if shutil.which("cc"):
        return ["cc"]
    print("tools/library.py: there is neither a command rt nor cc", file=sys.stderr)
    sys.exit(2)


def compile_library(source, out):
    subprocess.run([*compiler(), *WORDS, "-o", out, source], check=True)
    return out


if __name__ == "__main__":
    if len(sys.argv) != 3:
        sys.exit(__doc__.split("\n\n")[1])
    compile_library(*sys.argv[1:])
