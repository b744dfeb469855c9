"""Answers of the proved program as it wrote them, and a folder that keeps them."""

from __future__ import annotations

import json
import os
import tempfile
from collections.abc import Mapping, Sequence
from dataclasses import dataclass
from hashlib import sha256
from pathlib import Path

from ._protocol import HEAD, READ_FAILED, WRITE_FAILED

__all__ = ["Answer", "Cache"]


@dataclass(frozen=True)
class Answer:
    """What a run wrote to standard output and to standard error, and its status, as docs/COMMANDS.md has it."""

    status: int
    out: bytes
    err: bytes


@dataclass(frozen=True)
class Cache:
    """Answers kept in a folder, each under what it is the answer to: the program's version, the question's words, its files' names and contents.

    An answer depends on nothing else, so one that is kept is the one that would come again. Refusals are kept as well, but neither a read or a write
    that failed nor want of memory or time. Several processes may use one folder.
    """

    folder: Path

    def key(self, version: str, words: Sequence[str], files: Mapping[str, bytes]) -> str:
        """The name under which an answer is kept."""
        asked = [version, list(words), sorted((name, sha256(text).hexdigest()) for name, text in files.items())]
        return sha256(json.dumps(asked).encode()).hexdigest()

    def get(self, key: str) -> Answer | None:
        """The answer that is kept under this name; none where there is none, or a file that is no answer."""
        try:
            kept = (self.folder / key).read_bytes()
        except FileNotFoundError:
            return None
        if len(kept) < HEAD.size:
            return None
        status, out, err = HEAD.unpack_from(kept)
        texts = kept[HEAD.size :]
        return Answer(status, texts[:out], texts[out:]) if len(texts) == out + err else None

    def put(self, key: str, answer: Answer) -> None:
        """Keeps an answer, whole or not at all."""
        if answer.status in (READ_FAILED, WRITE_FAILED):
            return
        self.folder.mkdir(parents=True, exist_ok=True)
        with tempfile.NamedTemporaryFile(dir=self.folder, delete=False) as made:
            made.write(HEAD.pack(answer.status, len(answer.out), len(answer.err)) + answer.out + answer.err)
        os.replace(made.name, self.folder / key)
