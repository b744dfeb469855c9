"""Sweeps over executors of all kinds, by hand: a lock of n numbers that is tried t times opens with probability t/n, and one guess more is right."""

import os
import signal
import threading
import time
from concurrent.futures import ProcessPoolExecutor, ThreadPoolExecutor
from fractions import Fraction

import pytest

pytest.importorskip("pandas")
pytest.importorskip("jinja2")

from kuifje.answers import Cache  # noqa: E402
from kuifje.sweeps import points, sweep  # noqa: E402
from kuifje.templates import BadTemplate, Template  # noqa: E402

pytestmark = pytest.mark.usefixtures("built")

LOCK = Template(
    """
var x : 0..{{ n - 1 }} := uniform 0..{{ n - 1 }};
about old x;
{% for i in range(t) %}
if x = {{ i }} { skip; } else { skip; }
{% endfor %}
{% if n == 5 %}
observe x @;
{% endif %}
""",
    "lock.kf.j2",
)
GRID = {"n": [4, 5, 6], "t": [1, 2]}


def posterior(n, t):
    """Each of the t values that are tried is known; one of the others is guessed."""
    return Fraction(t + 1, n)


def check(frame):
    assert list(zip(frame["n"], frame["t"])) == [(4, 1), (4, 2), (5, 1), (5, 2), (6, 1), (6, 2)]
    for row in frame.to_dict("records"):
        if row["n"] == 5:
            assert row["status"] == 5 and "Char" in row["refusal"] and row["posterior_vulnerability"] is None
        else:
            assert row["posterior_vulnerability"] == posterior(row["n"], row["t"])
            assert row["status"] is None and row["refusal"] is None and row["gain"] == "bayes"


def test_each_executor_answers_each_point(tmp_path):
    LOCK_FILE = tmp_path / "lock.kf.j2"
    LOCK_FILE.write_text(LOCK.text)
    check(sweep(LOCK_FILE, GRID, "leak"))
    for executor in (ProcessPoolExecutor(2), ThreadPoolExecutor(2)):
        with executor:
            check(sweep(LOCK, points(GRID), "leak", executor))


def capacity_and_tries(program):
    return {"capacity": program.capacity(), "tries": program.reach(Fraction(1, 2)).tries}


def test_measures_are_functions_too(capsys):
    """A lock that is tried once has the capacity 2. Of four values a guess is then right with probability 1/2, of six two guesses are."""
    with ThreadPoolExecutor(2) as pool:
        frame = sweep(LOCK, {"n": [4, 6], "t": [1]}, capacity_and_tries, pool, progress=True)
        assert frame.to_dict("records") == [
            {"n": 4, "t": 1, "capacity": 2, "tries": 1, "status": None, "refusal": None},
            {"n": 6, "t": 1, "capacity": 2, "tries": 2, "status": None, "refusal": None},
        ]
        assert [len(hyper.inners) for hyper in sweep(LOCK, {"n": [4], "t": [1, 2]}, "hyper", pool)["value"]] == [2, 3]
        assert list(sweep(LOCK, {"n": [4], "t": [1]}, "capacity", pool)["value"]) == [2]
        assert "100%" in capsys.readouterr().err


def test_what_takes_too_long_or_is_no_text_is_a_row():
    with ThreadPoolExecutor(1) as pool:
        frame = sweep(LOCK, {"n": [4], "t": [1]}, "leak", pool, timeout=0.0)
        assert list(frame["status"]) == [None] and "longer" in frame["refusal"][0]
        assert "is undefined" in sweep(LOCK, {"n": [4]}, "leak", pool)["refusal"][0]


def test_what_is_no_question_is_raised():
    with ThreadPoolExecutor(1) as pool:
        for measure, grid in (
            ("colour", GRID),
            ("", GRID),
            ("leak", {"n": [4], "t": [1], "gain": [1]}),
            ("leak", {"n": [4], "t": [1], "status": [1]}),
            ("leak", {"n": [4], "t": [1], "nope": [1]}),
            ("leak", [{"n": 4, "t": 1}, {"n": 4, "t": 1, "nope": 1}]),
            ("leak --gain bays", GRID),
            ("lines --gain tries:0", GRID),
        ):
            with pytest.raises(ValueError):
                sweep(LOCK, grid, measure, pool)
    with pytest.raises(BadTemplate):
        Template("{% if %}").expand()


def test_a_cache_keeps_what_was_answered(tmp_path, monkeypatch):
    """The second sweep asks nothing: a program that would refuse everything is told from the first by its content, and asked anew."""
    with ThreadPoolExecutor(1) as pool:
        check(sweep(LOCK, GRID, "leak", pool, cache=tmp_path / "kept"))
        kept = {path.name: path.stat().st_mtime_ns for path in (tmp_path / "kept").iterdir()}
        assert len(kept) == 6
        check(sweep(LOCK, GRID, "leak", pool, cache=tmp_path / "kept"))
        sweep(LOCK, GRID, "capacity", pool, cache=tmp_path / "kept")
        again = {path.name: path.stat().st_mtime_ns for path in (tmp_path / "kept").iterdir()}
        assert len(again) == 12 and again.items() > kept.items()
        refusing = tmp_path / "refusing"
        refusing.write_text("#!/bin/sh\necho 'kuifje: want of nothing' >&2\nexit 9\n")
        refusing.chmod(0o755)
        monkeypatch.setenv("KUIFJE_PROGRAM", str(refusing))
        monkeypatch.delenv("KUIFJE_LIBRARY", raising=False)
        assert set(sweep(LOCK, GRID, "leak", pool, cache=Cache(tmp_path / "kept").folder, memory=3 << 30)["status"]) == {9}


def test_a_worker_of_a_cluster_is_ended_in_the_middle():
    """Each point is answered once, and none is lost."""
    distributed = pytest.importorskip("distributed")
    with distributed.LocalCluster(n_workers=3, threads_per_worker=1, dashboard_address=None) as cluster, distributed.Client(cluster) as client:
        pids = client.run(os.getpid)
        assert len(set(pids.values())) == 3

        def slow(program):
            time.sleep(0.15)
            return {"pid": os.getpid(), "posterior": program.leak().posterior_vulnerability}

        grid = {"n": range(10, 30), "t": [1, 2, 3]}
        found = []
        thread = threading.Thread(target=lambda: found.append(sweep(LOCK, grid, slow, client)))
        thread.start()
        time.sleep(1.5)
        ended = next(iter(pids.values()))
        assert thread.is_alive() and ended != os.getpid()
        os.kill(ended, signal.SIGKILL)
        thread.join(600)
        (frame,) = found
        assert [(row.n, row.t, row.posterior) for row in frame.itertuples()] == [(n, t, posterior(n, t)) for n in range(10, 30) for t in (1, 2, 3)]
        assert set(pids.values()) - {ended} <= set(frame["pid"])
