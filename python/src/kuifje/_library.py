"""The C library, by ctypes: what `include/kuifje.h` declares, and no more."""

from __future__ import annotations

import ctypes
import os
from collections.abc import Mapping, Sequence
from pathlib import Path

from ._protocol import LIBRARY, NAME

__all__ = ["Library", "load"]

MAJOR = 0  # the major version whose calls these are
ROOM = 1 << 20  # bytes of each buffer, at first


class _Span(ctypes.Structure):
    _fields_ = [("start", ctypes.c_size_t), ("end", ctypes.c_size_t)]


class _File(ctypes.Structure):
    _fields_ = [("name", _Span), ("contents", _Span)]


class _Lengths(ctypes.Structure):
    _fields_ = [("out", ctypes.c_size_t), ("err", ctypes.c_size_t)]


class Library:
    """A loaded library. Raises ``OSError`` where there is none at this path, or one of another major version.

    Its two buffers stay from one call to the next, and grow where an answer needs it.
    """

    def __init__(self, path: str) -> None:
        library = ctypes.CDLL(path)
        library.kuifje_version.restype = ctypes.c_uint32
        if (found := library.kuifje_version()) // 1_000_000 != MAJOR:
            raise OSError(f"{path} has the version {found}")
        self.path = path if os.sep in path else _mapped(path)
        self._run = library.kuifje_run
        self._run.restype = ctypes.c_uint8
        size, bytes_ = ctypes.c_size_t, ctypes.c_char_p
        self._run.argtypes = [
            *(bytes_, size, ctypes.POINTER(_Span), size, ctypes.POINTER(_File), size),
            *(bytes_, size, bytes_, size, ctypes.POINTER(_Lengths)),
        ]
        self._out, self._err = ctypes.create_string_buffer(ROOM), ctypes.create_string_buffer(ROOM)

    def run(self, words: Sequence[str], files: Mapping[str, bytes]) -> tuple[int, bytes, bytes]:
        """The status of a run on these words over these files, and what it writes to ``out`` and ``err``."""
        held = bytearray()

        def span(piece: bytes) -> _Span:
            held.extend(piece)
            return _Span(len(held) - len(piece), len(held))

        word_spans = [span(word.encode()) for word in ("kuifje", *words)]
        file_spans = [_File(span(name.encode()), span(text)) for name, text in files.items()]
        first = (_Span * len(word_spans))(*word_spans)
        second = (_File * max(1, len(file_spans)))(*file_spans)
        asked = bytes(held), len(held), first, len(word_spans), second, len(file_spans)
        lengths = _Lengths()
        while True:
            out, err = self._out, self._err
            status = self._run(*asked, out, len(out), err, len(err), ctypes.byref(lengths))
            if lengths.out <= len(out) and lengths.err <= len(err):
                return status, ctypes.string_at(out, lengths.out), ctypes.string_at(err, lengths.err)
            self._out = ctypes.create_string_buffer(max(len(out), lengths.out))
            self._err = ctypes.create_string_buffer(max(len(err), lengths.err))


def _mapped(name: str) -> str:
    """Where a library that this process has loaded by its name stands."""
    lines = Path("/proc/self/maps").read_text(encoding="utf-8").splitlines()
    base = name.partition(".")[0]
    return next((fields[5] for line in lines if f"/{base}." in line and len(fields := line.split(maxsplit=5)) == 6), name)


def load() -> Library | None:
    """The library that the environment's ``KUIFJE_LIBRARY`` names, else the system's, or none where there is none."""
    if named := os.environ.get(LIBRARY):
        return Library(named)
    try:
        return Library(NAME)
    except OSError:
        return None
