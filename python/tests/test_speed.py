"""How long a small question takes through the open worker, and a large answer to be read: by the library, the best of some runs.

Reading is measured in seconds of this process's processor, so that others on a busy machine don't count.
"""

import os
import time

import pytest

from kuifje import Engine, Hyper, Program
from kuifje._protocol import LIBRARY

pytestmark = pytest.mark.whole


def best(runs, question, clock=time.perf_counter):
    """Seconds of the shortest of some runs."""
    found = []
    for _ in range(runs):
        start = clock()
        question()
        found.append(clock() - start)
    return min(found)


@pytest.fixture
def engine():
    if not os.environ.get(LIBRARY):
        pytest.skip(f"{LIBRARY} names no library")
    engine = Engine()
    yield engine
    engine.close()


def test_a_small_question_takes_less_than_a_millisecond(engine):
    program = Program("var x : 0..3 := uniform 0..3;\nabout old x;\nobserve x mod 2;\n", engine=engine)
    seconds = best(500, program.leak)
    print(f"a small question: {seconds * 1e6:.0f} microseconds")
    assert seconds < 0.001


def test_a_hyper_of_65536_inners_is_read_in_less_than_a_second(engine):
    program = Program("var x : 0..65535 := uniform 0..65535;\nabout old x;\nobserve x;\n", engine=engine)
    hyper = program.hyper()
    text = str(hyper)
    seconds = best(3, lambda: Hyper.parse(text), time.process_time)
    print(f"a hyper of 65,536 inners: read in {seconds:.2f} seconds")
    assert len(hyper.inners) == 65536 and seconds < 1
