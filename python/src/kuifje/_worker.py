"""The process that runs the questions: reads each from standard input, and writes its answer to standard output.

The first that it writes is its version: the SHA-256 of the library or the program that answers, or as many blanks where there is neither. A question
is a line of JSON with its words and the names and lengths of its files, and then the files' bytes. Once it is read, ``BEGUN`` is written. An answer
is a ``HEAD`` with its status and the lengths of what was written to ``out`` and ``err``, and then these bytes. A status below 0 is that of a program
that a signal ended.
"""

from __future__ import annotations

import json
import os
import resource
import shutil
import signal
import subprocess
import sys
import tempfile
import threading
import time
from collections.abc import Callable, Mapping, Sequence
from functools import partial
from hashlib import sha256
from pathlib import Path
from typing import BinaryIO

from ._library import load
from ._protocol import BEGUN, HEAD, LIBRARY, PROGRAM, VERSION_LENGTH, WANT_OF_MEMORY

Run = Callable[[Sequence[str], Mapping[str, bytes]], tuple[int, bytes, bytes]]


def program() -> str | None:
    """The program's path: as the environment's ``KUIFJE_PROGRAM`` has it, else the ``kuifje`` on the path."""
    return os.environ.get(PROGRAM) or shutil.which("kuifje")


def run_program(path: str, words: Sequence[str], files: Mapping[str, bytes]) -> tuple[int, bytes, bytes]:
    """A run of the program in a folder of its own that has these files and no others."""
    with tempfile.TemporaryDirectory(prefix="kuifje-") as folder:
        for name, text in files.items():
            Path(folder, name).write_bytes(text)
        done = subprocess.run([path, *words], cwd=folder, stdin=subprocess.DEVNULL, capture_output=True, check=False)
    return done.returncode, done.stdout, done.stderr


def runner() -> tuple[str, Run] | None:
    """What answers, and where it stands: the library or program that the environment names, else the library where there is one, else the program."""
    library = load() if os.environ.get(LIBRARY) or not os.environ.get(PROGRAM) else None
    if library is not None:
        return library.path, library.run
    path = program()
    return None if path is None else (path, partial(run_program, path))


def _end_with(parent: int) -> None:
    """Ends this process, and a program that it has started, once its parent is gone."""
    while os.getppid() == parent:
        time.sleep(1)
    if os.getpgrp() == os.getpid():
        os.killpg(0, signal.SIGKILL)
    os._exit(1)


def serve(source: BinaryIO, sink: BinaryIO) -> None:
    """Answers the questions of a source, until it ends."""
    if (found := runner()) is None:
        sink.write(b" " * VERSION_LENGTH)
        return
    path, run = found
    sink.write(sha256(Path(path).read_bytes()).hexdigest().encode())
    sink.flush()
    while line := source.readline():
        asked = json.loads(line)
        files = {name: source.read(length) for name, length in asked["files"]}
        sink.write(BEGUN)
        sink.flush()
        try:
            status, out, err = run(asked["words"], files)
        except MemoryError:
            status, out, err = WANT_OF_MEMORY, b"", b""
        sink.write(HEAD.pack(status, len(out), len(err)) + out + err)
        sink.flush()


def main() -> None:
    """``python3 -m kuifje._worker BYTES PARENT``: serves with so much address space, as long as the process PARENT is there."""
    memory, parent = map(int, sys.argv[1:])
    _, most = resource.getrlimit(resource.RLIMIT_AS)
    memory = memory if most == resource.RLIM_INFINITY else min(memory, most)
    resource.setrlimit(resource.RLIMIT_AS, (memory, memory))
    resource.setrlimit(resource.RLIMIT_CORE, (0, 0))
    threading.Thread(target=_end_with, args=(parent,), daemon=True).start()
    serve(sys.stdin.buffer, sys.stdout.buffer)


if __name__ == "__main__":
    main()
