"""Workers of an engine: several threads ask at a time, workers that were killed, and what is left open of them."""

import gc
import os
import signal
import subprocess
import sys
import threading
import time
from pathlib import Path

import pytest

from kuifje import Engine, OutOfTime, TooLarge, engine as engines, workers
from kuifje._protocol import LIBRARY, PROGRAM

FILES = {"p.kf": b"skip;"}
SLOW = 60  # seconds of a slow question: far longer than a machine that is busy takes for a small one
SCRIPT = f"""case "$1" in
slow) sleep {SLOW} ;;
waits) while [ ! -e FOLDER/opened ]; do sleep 0.05; done ;;
pid) echo $PPID ;;
ends) echo asked >> FOLDER/asked; kill -9 $PPID ;;
esac
echo "$1"
"""


@pytest.fixture(autouse=True)
def program(tmp_path, monkeypatch):
    """A program in the place of the proved one: its first word says what it does, and to its worker. Gives what ends its waiting."""
    path = tmp_path / "kuifje"
    path.write_text("#!/bin/sh\n" + SCRIPT.replace("FOLDER", str(tmp_path)))
    path.chmod(0o755)
    monkeypatch.setenv(PROGRAM, str(path))
    monkeypatch.delenv(LIBRARY, raising=False)
    engines.default_engine().close()  # what other tests left of it doesn't end in the middle
    return (tmp_path / "opened").touch


@pytest.fixture
def engine():
    engine = Engine(workers=4)
    yield engine
    engine.close()


def children():
    """The processes that are this one's children, and those that ended and weren't waited for."""
    found = {}
    for entry in Path("/proc").iterdir():
        try:
            state, parent = (entry / "stat").read_text().rpartition(")")[2].split()[:2]
        except OSError:
            continue
        if entry.name.isdigit() and int(parent) == os.getpid():
            found[int(entry.name)] = state
    return found


def descriptors():
    return len(os.listdir("/proc/self/fd"))


def until(test, seconds=60):
    """Waits until something is so."""
    deadline = time.monotonic() + seconds
    while not test() and time.monotonic() < deadline:
        time.sleep(0.02)
    assert test()


def in_thread(question):
    """Asks in another thread, and gives this and what comes of it."""
    found = []

    def run():
        try:
            found.append(question())
        except BaseException as cause:
            found.append(cause)

    thread = threading.Thread(target=run)
    thread.start()
    return thread, found


def asking(engine, count=1):
    """Whether so many questions are on their way."""
    return sum(not worker.usable for worker in engine._workers) == count


def test_a_second_thread_does_not_wait_for_the_first(engine):
    """It is answered while the first one's question, which takes a minute, is still asked."""
    assert engine.ask(["x"], FILES).out == b"x\n"
    thread, found = in_thread(lambda: engine.ask(["slow"], FILES))
    until(lambda: asking(engine))
    start = time.monotonic()
    assert engine.ask(["y"], FILES).out == b"y\n"
    first = time.monotonic() - start
    start = time.monotonic()
    assert engine.ask(["z"], FILES).out == b"z\n"  # by a worker that is there
    assert not found and first < SLOW / 4 and time.monotonic() - start < SLOW / 4
    engine.close()
    thread.join()
    assert isinstance(found[0], TooLarge)


def test_a_question_waits_where_all_workers_are_asked_and_that_counts(program):
    engine = Engine(workers=1)
    thread, found = in_thread(lambda: engine.ask(["waits"], FILES))
    until(lambda: asking(engine))
    with pytest.raises(OutOfTime, match="no answer within 0.05 seconds"):
        engine.ask(["x"], FILES, timeout=0.05)
    threading.Timer(0.3, program).start()
    assert engine.ask(["x"], FILES).out == b"x\n"  # it waits
    thread.join()
    assert found[0].out == b"waits\n" and len(engine._workers) == 1
    engine.close()


@pytest.mark.parametrize("pause", [0.0, 0.5])
def test_a_worker_that_was_killed_between_two_questions_costs_none(engine, pause):
    """Whether it is gone already, or still about to go."""
    for _ in range(5):
        killed = int(engine.ask(["pid"], FILES).out.split()[0])
        os.kill(killed, signal.SIGKILL)
        time.sleep(pause)
        assert engine.ask(["x"], FILES).out == b"x\n"
        assert killed not in children()


def test_all_workers_that_were_killed_at_once_cost_no_question(engine, program):
    """As where memory is short, so that each that is free ends."""
    threads = [in_thread(lambda: engine.ask(["waits"], FILES)) for _ in range(4)]
    until(lambda: asking(engine, 4))
    program()
    for thread, _ in threads:
        thread.join()
    killed = [worker.pid for worker in engine._workers]
    for pid in killed:
        os.kill(pid, signal.SIGKILL)
    assert len(killed) == 4 and engine.ask(["x"], FILES).out == b"x\n" and not set(killed) & set(children())


def test_a_question_that_ends_its_worker_is_not_asked_again(engine, tmp_path):
    with pytest.raises(TooLarge, match="the worker ended while it answered"):
        engine.ask(["ends"], FILES)
    assert (tmp_path / "asked").read_text() == "asked\n"
    assert engine.ask(["x"], FILES).out == b"x\n"


def test_a_question_is_asked_twice_at_most(engine, monkeypatch):
    """Each worker ends once it has started."""
    started, version = [], workers.Worker.version

    def killed(self, deadline):
        found = version(self, deadline)
        started.append(self.pid)
        os.kill(self.pid, signal.SIGKILL)
        return found

    monkeypatch.setattr(workers.Worker, "version", killed)
    with pytest.raises(TooLarge, match="two workers ended before they began"):
        engine.ask(["x"], FILES)
    assert len(set(started)) == 2 and not set(started) & set(children())


def test_workers_end_when_nothing_is_asked_any_more(engine, program, monkeypatch):
    """All but one, and the next question is answered by that."""
    monkeypatch.setattr(engines, "LINGERING", 0.5)
    before, open_before = set(children()), descriptors()
    threads = [in_thread(lambda: engine.ask(["waits"], FILES)) for _ in range(3)]
    until(lambda: len(set(children()) - before) == 3)
    program()
    for thread, found in threads:
        thread.join()
        assert found[0].out == b"waits\n"
    until(lambda: len(set(children()) - before) == 1)
    kept = (set(children()) - before).pop()
    assert int(engine.ask(["pid"], FILES).out.split()[0]) == kept
    until(lambda: not any(thread.name == "kuifje-workers" for thread in threading.enumerate()))
    engine.close()
    assert not set(children()) - before and descriptors() <= open_before


def test_nothing_is_left_of_an_engine_that_is_no_more():
    before, open_before = set(children()), descriptors()
    engine = Engine()
    engine.ask(["x"], FILES)
    assert len(set(children()) - before) == 1
    del engine
    gc.collect()
    assert not set(children()) - before and descriptors() <= open_before


def test_nothing_is_left_after_questions_that_end_their_workers(engine):
    before, open_before = set(children()), descriptors()
    for _ in range(3):
        with pytest.raises(OutOfTime):
            engine.ask(["slow"], FILES, timeout=0.2)
        with pytest.raises(TooLarge):
            engine.ask(["ends"], FILES)
    engine.close()
    assert not set(children()) - before and descriptors() <= open_before


def test_a_worker_that_takes_long_to_start_goes_on_with_it(engine):
    """The next question, that waits longer, has it."""
    with pytest.raises(OutOfTime):
        engine.ask(["x"], FILES, timeout=1e-6)
    until(lambda: len(engine._workers) == 1)
    worker = engine._workers[0]
    assert engine.ask(["x"], FILES).out == b"x\n" and engine._workers == [worker]


def test_a_process_that_is_forked_while_threads_ask_has_workers_of_its_own(engine, program):
    """It closes the pipes of its parent's workers, and ends none of them."""
    engine.ask(["x"], FILES)
    threads = [in_thread(lambda: engine.ask(["waits"], FILES)) for _ in range(2)]
    until(lambda: asking(engine, 2) and all(worker.pid for worker in engine._workers))
    if (child := os.fork()) == 0:
        try:
            open_before = descriptors()
            right = engine.ask(["y"], FILES).out == b"y\n" and len(children()) == 1 and descriptors() == open_before + 2
            engine.close()
            os._exit(0 if right and not children() else 1)
        finally:
            os._exit(2)
    assert os.waitpid(child, 0)[1] == 0
    program()
    for thread, found in threads:
        thread.join()
        assert found[0].out == b"waits\n"


def test_an_interrupt_ends_the_question_of_its_thread_alone(engine, program):
    thread, found = in_thread(lambda: engine.ask(["waits"], FILES))
    until(lambda: asking(engine))
    previous = signal.signal(signal.SIGALRM, signal.default_int_handler)  # what SIGINT does, also where that is ignored
    try:
        signal.setitimer(signal.ITIMER_REAL, 0.3)
        with pytest.raises(KeyboardInterrupt):
            engine.ask(["slow"], FILES)
    finally:
        signal.setitimer(signal.ITIMER_REAL, 0)
        signal.signal(signal.SIGALRM, previous)
    program()
    thread.join()
    assert found[0].out == b"waits\n" and engine.ask(["x"], FILES).out == b"x\n"
    assert all(worker.usable and worker.holder is None for worker in engine._workers)


def test_a_question_of_many_bytes_that_is_not_read_is_ended_in_time(engine):
    """The worker is stopped, so that its pipe is full."""
    pid = int(engine.ask(["pid"], FILES).out.split()[0])
    os.kill(pid, signal.SIGSTOP)
    start = time.monotonic()
    with pytest.raises(OutOfTime):
        engine.ask(["x"], {"p.kf": b"#" * 1_000_000}, timeout=0.5)
    assert time.monotonic() - start < SLOW / 4 and pid not in children()


def test_a_worker_takes_no_more_memory_than_its_parent_may(tmp_path):
    """4 GB are more than the limit of this process and its children, beyond which none can go."""
    script = "from kuifje import Engine; print(Engine().ask(['x'], {'p.kf': b'skip;'}).out.decode(), end='')"
    command = f'ulimit -v 3000000; exec {sys.executable} -c "{script}"'
    found = subprocess.run(["bash", "-c", command], env={**os.environ, "PYTHONPATH": os.pathsep.join(sys.path)}, capture_output=True, check=False)
    assert (found.stdout, found.stderr) == (b"x\n", b"")


def test_a_process_that_ends_leaves_no_worker():
    """It ends without closing its engine, in the middle of another thread's question."""
    script = (
        "import threading, time\nfrom kuifje import Engine\nengine = Engine()\n"
        "print(engine.ask(['pid'], {'p.kf': b''}).out.split()[0].decode(), flush=True)\n"
        "threading.Thread(target=lambda: engine.ask(['slow'], {'p.kf': b''}), daemon=True).start()\n"
        "time.sleep(0.3)\n"
    )
    found = subprocess.run(
        [sys.executable, "-c", script], env={**os.environ, "PYTHONPATH": os.pathsep.join(sys.path)}, capture_output=True, text=True, check=True
    )
    assert found.stderr == ""
    until(lambda: not Path(f"/proc/{int(found.stdout)}").exists())
