"""The engine and its worker: what is kept, what is too large, and what becomes of a worker whose process is gone."""

import io
import json
import os
import signal
import subprocess
import sys
import time
from hashlib import sha256
from pathlib import Path

import pytest

from kuifje import Engine, KuifjeError, Program, TooLarge, _worker
from kuifje._protocol import BEGUN, HEAD, LIBRARY, PROGRAM
from kuifje.answers import Answer, Cache

WORDS, FILES = ["hyper", "p.kf"], {"p.kf": b"var x : 0..1 := 0;\nabout old x;\n"}
HYPER = b"target old x\nscale 1\ninners 1\ninner 0 outer 1\n  0 1\n"


def stand_in(folder, monkeypatch, script):
    """A program in the place of the proved one."""
    path = folder / "kuifje"
    path.write_text(f"#!/bin/sh\n{script}\n")
    path.chmod(0o755)
    monkeypatch.setenv(PROGRAM, str(path))
    monkeypatch.delenv(LIBRARY, raising=False)
    return path


def test_a_cache_keeps_answers_by_content(tmp_path):
    cache = Cache(tmp_path / "kept")
    keys = {
        cache.key(*asked)
        for asked in [
            ("1", WORDS, FILES),
            ("2", WORDS, FILES),
            ("1", ["leak", "p.kf"], FILES),
            ("1", WORDS, {"p.kf": b""}),
            ("1", WORDS, {"q.kf": FILES["p.kf"]}),
        ]
    }
    assert len(keys) == 5
    key = keys.pop()
    assert cache.get(key) is None
    for answer in (Answer(0, b"out", b""), Answer(9, b"", b"err\n")):
        cache.put(key, answer)
        assert cache.get(key) == answer
    for spoilt in (b"", HEAD.pack(0, 3, 0) + b"ou"):
        (tmp_path / "kept" / key).write_bytes(spoilt)
        assert cache.get(key) is None
    cache.put("other", Answer(3, b"", b"read failed\n"))
    assert cache.get("other") is None and [path.name for path in (tmp_path / "kept").iterdir()] == [key]


def test_an_engine_asks_once(tmp_path, monkeypatch):
    path = stand_in(tmp_path, monkeypatch, f"echo asked >> {tmp_path}/asked; printf '%s' \"$*\"")
    engine = Engine(cache=Cache(tmp_path / "kept"))
    assert engine.version == sha256(path.read_bytes()).hexdigest()
    for _ in range(3):
        assert engine.ask(WORDS, FILES).out == b"hyper p.kf"
    engine.close()
    assert (tmp_path / "asked").read_text() == "asked\n"


def test_an_answer_that_is_too_long_is_not_read(tmp_path, monkeypatch):
    stand_in(tmp_path, monkeypatch, "head -c 9000000 /dev/zero")
    engine = Engine(memory=256 << 20)
    with pytest.raises(TooLarge, match="9000000 bytes, and may have 8388608"):
        engine.ask(WORDS, FILES)
    engine.close()
    assert len(Engine().ask(WORDS, FILES).out) == 9_000_000


def test_a_program_that_a_signal_ends_took_too_much(tmp_path, monkeypatch):
    stand_in(tmp_path, monkeypatch, "kill -SEGV $$")
    with pytest.raises(TooLarge, match="signal 11"):
        Engine().ask(WORDS, FILES)


def test_a_worker_that_has_no_room_to_start():
    with pytest.raises(TooLarge):
        Engine(memory=1 << 20).ask(WORDS, FILES)


def test_nothing_to_run(tmp_path, monkeypatch):
    monkeypatch.setenv("PATH", str(tmp_path))
    monkeypatch.delenv(PROGRAM, raising=False)
    monkeypatch.setenv(LIBRARY, "")
    sink = io.BytesIO()
    monkeypatch.setattr(_worker, "load", lambda: None)
    _worker.serve(io.BytesIO(), sink)
    assert sink.getvalue() == b" " * 64
    engine = Engine()
    monkeypatch.setattr("kuifje.workers.VERSION_LENGTH", 0)
    with pytest.raises(KuifjeError, match="no library"):
        engine.ask(WORDS, FILES)
    engine.close()


def test_a_worker_serves(tmp_path, monkeypatch):
    """The same as in a process of its own: the version, then answers, then want of memory."""
    path = stand_in(tmp_path, monkeypatch, 'cat "$2"; echo err >&2; exit 7')
    question = json.dumps({"words": WORDS, "files": [["p.kf", 3]]}).encode() + b"\nabc"
    sink = io.BytesIO()
    _worker.serve(io.BytesIO(question * 2), sink)
    answer = BEGUN + HEAD.pack(7, 3, 4) + b"abcerr\n"
    assert sink.getvalue() == sha256(path.read_bytes()).hexdigest().encode() + answer * 2

    def hungry(path, words, files):
        raise MemoryError

    monkeypatch.setattr(_worker, "run_program", hungry)
    sink = io.BytesIO()
    _worker.serve(io.BytesIO(question), sink)
    assert sink.getvalue()[64:] == BEGUN + HEAD.pack(12, 0, 0)


@pytest.mark.usefixtures("built")
def test_a_process_that_is_forked_has_a_worker_of_its_own():
    engine = Engine()
    assert engine.ask(WORDS, FILES).out == HYPER
    source, sink = os.pipe()
    if (child := os.fork()) == 0:
        try:
            os.write(sink, engine.ask(WORDS, FILES).out)
            engine.close()
        finally:
            os._exit(0)
    os.close(sink)
    os.waitpid(child, 0)
    with open(source, "rb") as answers:
        assert answers.read() == HYPER
    assert engine.ask(WORDS, FILES).out == HYPER
    engine.close()


def is_there(pid):
    """Whether a process runs: one that ended and isn't waited for doesn't."""
    try:
        return Path(f"/proc/{pid}/stat").read_text().rpartition(")")[2].split()[0] != "Z"
    except OSError:
        return False


def test_a_worker_ends_with_its_process(tmp_path, monkeypatch):
    """In the middle of a question, with the program that it started."""
    stand_in(tmp_path, monkeypatch, f"echo $$ > {tmp_path}/pid; exec sleep 100")
    script = "from kuifje import Program; Program('skip;').hyper()"
    process = subprocess.Popen([sys.executable, "-c", script], env={**os.environ, "PYTHONPATH": os.pathsep.join(sys.path)})
    deadline = time.monotonic() + 120
    while not ((tmp_path / "pid").exists() and (tmp_path / "pid").read_text().strip()) and time.monotonic() < deadline:
        time.sleep(0.05)
    pid = int((tmp_path / "pid").read_text())
    assert is_there(pid)
    os.kill(process.pid, signal.SIGKILL)
    process.wait()
    while is_there(pid) and time.monotonic() < deadline:
        time.sleep(0.05)
    assert not is_there(pid)


@pytest.mark.usefixtures("built")
def test_a_question_of_a_megabyte_is_handed_over():
    """More than a pipe holds."""
    text = "var x : 0..1 := 0;\nabout old x;\n" + "#" * 1_000_000 + "\n"
    assert len(Program(text).hyper().inners) == 1
