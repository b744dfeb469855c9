"""Random models: the proved program's hyper-distribution is the one that the function's runs in Python leave, letter by letter."""

import pytest
from hypothesis import HealthCheck, given, reject, settings
from random_models import made, sources

from kuifje.model import BadModel

pytestmark = pytest.mark.usefixtures("built")
SLOW = [HealthCheck.too_slow, HealthCheck.data_too_large, HealthCheck.function_scoped_fixture]


def agrees(source):
    it = made(source)
    try:
        program = it.program()
    except BadModel as refused:
        assert "has changed since a loop or a call took it" in refused.reason
        reject()
    assert str(program.hyper()) == str(it.hyper_of_runs()), it.text()


@settings(max_examples=25, suppress_health_check=SLOW)
@given(sources())
def test_random_models(source):
    agrees(source)


@pytest.mark.whole
@settings(max_examples=1000, suppress_health_check=SLOW)
@given(sources())
def test_a_thousand_random_models(source):
    agrees(source)
