"""The studies in ``models``: their numbers are those that a security engineer worked out by hand and by enumeration, of models of their own."""

import importlib.util
from fractions import Fraction
from itertools import product
from pathlib import Path

import pytest

from kuifje import Program, cascade, choice, measures, refine
from kuifje.model import Model

pytestmark = pytest.mark.usefixtures("built")
FOLDER = Path(__file__).resolve().parents[1] / "models"


def study(name):
    """A study as a module."""
    spec = importlib.util.spec_from_file_location(f"study_{name}", FOLDER / f"{name}.py")
    module = importlib.util.module_from_spec(spec)
    spec.loader.exec_module(module)
    return module


NAMES = sorted(path.stem for path in FOLDER.glob("*.py"))
STUDIES = {name: study(name) for name in NAMES}
COUNTS = {"powers": [128, 64, 64, 64, 32, 16, 16, 4], "one": [128] * 8}
QUICK = [
    ("password", "early", {}, "bayes", "5/16"),
    ("password", "early", {}, "tries:3", "9/16"),
    ("password", "whole", {}, "bayes", "1/16"),
    ("password", "whole", {}, "tries:3", "3/32"),
    ("password", "early_pin", {}, "bayes", "997/10000"),
    ("pinpad", "smudge", {}, "bayes", "77/2000"),
    ("pinpad", "smudge", {}, "tries:14", "263/500"),
    ("pinpad", "camera", {}, "bayes", "28561/2560000"),
    ("pinpad", "smudge_of_four", {}, "bayes", "7/32"),
    ("pinpad", "scrambled", {}, "bayes", "5/64"),
    ("modexp", "plain", {}, "bayes", "1/3"),
    ("modexp", "blinded", {}, "bayes", "13/48"),
    ("modexp", "blinded", {"measurements": 30}, "bayes", "6917391763346844067/13835058055282163712"),
    ("modexp", "ladder", {}, "bayes", "1/12"),
    ("padding_oracle", "oracle", {}, "bayes", "15/16"),
    ("padding_oracle", "blocks", {}, "bayes", "3/64"),
    ("padding_oracle", "blocks", {"constant": True}, "bayes", "1/64"),
    ("telemetry", "reports", {"kept": False}, "bayes", "15795/16384"),
    ("telemetry", "reports", {"fresh": False}, "bayes", "9/10"),
    ("telemetry", "reports", {}, "bayes", "9/10"),
    ("rate_limit", "logins", {}, "bayes", "1"),
    ("rate_limit", "logins", {"per_name": True}, "bayes", "112/125"),
    ("rate_limit", "logins", {"per_name": True, "hashes_all": True}, "bayes", "4/5"),
    ("check_digit", "log", {}, "bayes", "1/100"),
    ("check_digit", "log", {"check_digit": False}, "bayes", "1/1000"),
    ("commitment", "lottery", {"nonce": 0}, "bayes", "1"),
    ("commitment", "lottery", {"nonce": 1}, "bayes", "21/40"),
    ("commitment", "lottery", {"nonce": 2}, "bayes", "1/10"),
    ("commitment", "coin", {}, "bayes", "3/4"),
    ("encrypted_search", "search", {}, "bayes", "432201/579121"),
    ("encrypted_search", "search", {"counts": COUNTS["powers"]}, "bayes", "2933329/5212089"),
    ("encrypted_search", "search", {"counts": COUNTS["one"]}, "bayes", "117600/579121"),
    ("encrypted_search", "search", {"counts": COUNTS["one"], "pattern": False}, "bayes", "78400/579121"),
    ("compression", "requests", {"padding": 0}, "bayes", "5/8"),
    ("compression", "requests", {"padding": 2}, "bayes", "1/216"),
    ("shares", "line", {}, "bayes", "1/7"),
    ("shares", "line", {"reduced": False}, "bayes", "13/49"),
    ("shares", "line", {"shares": 2}, "bayes", "1"),
    ("shares", "never_level", {}, "bayes", "1/6"),
    ("logs", "log", {}, "bayes", "1/4"),
    ("logs", "log", {"debug": True}, "bayes", "1"),
    ("logs", "collector", {}, "bayes", "1/2"),
    ("aes_cache", "lines", {"plaintexts": (17,)}, "bayes", "1/256"),
    ("aes_cache", "lines", {"plaintexts": (17, 200)}, "bayes", "11/256"),
]
WHOLE = [
    ("compression", "requests", {"padding": 1}, "bayes", "58721/1572864"),
    ("anonymity", "published", {"years": 1}, "bayes", "166694407/172800000"),
    ("anonymity", "published", {"years": 5}, "bayes", "5769607/6912000"),
    ("anonymity", "published", {"years": 10}, "bayes", "1206007/1728000"),
    ("anonymity", "published", {"years": 100}, "bayes", "936637/1728000"),
    ("aes_cache", "lines", {"plaintexts": (17, 200, 33)}, "bayes", "251/4096"),
    ("aes_cache", "lines", {}, "bayes", "1/16"),
    ("aes_cache", "lines", {"preloaded": True}, "bayes", "1/65536"),
    ("one_time_code", "lockout", {}, "bayes", "6/1000000"),
    ("one_time_code", "lockout", {}, "guessing", "99999100003/200000"),
]
CASES = [pytest.param(*case, marks=[pytest.mark.whole] if case in WHOLE else []) for case in QUICK + WHOLE]


@pytest.mark.parametrize("name, function, public, gain, posterior", CASES)
def test_the_numbers(name, function, public, gain, posterior):
    asked = getattr(STUDIES[name], function)
    assert asked.program(**public).leak(gain).posterior_vulnerability == Fraction(posterior)


MANY = {
    ("pinpad", "camera"),
    ("one_time_code", "lockout"),
    ("anonymity", "published"),
    ("aes_cache", "lines"),
    ("compression", "requests"),
    ("modexp", "blinded"),
}
RUN = {(name, function): public for name, function, public, *_ in QUICK + WHOLE}
BESIDE = [pytest.param(*key, public, marks=[pytest.mark.whole] if key in MANY else []) for key, public in RUN.items()]


@pytest.mark.parametrize("name, function, public", BESIDE)
def test_python_finds_the_same(name, function, public):
    """The whole hyper-distribution, by the runs of the function."""
    asked = getattr(STUDIES[name], function)
    small = {"blinded": {"measurements": 3}, "requests": {"padding": 0}, "published": {"years": 10}, "lines": {"plaintexts": (17, 200)}}
    public = small.get(function, public)
    assert str(asked.program(**public).hyper()) == str(asked.hyper_of_runs(**public))


def test_there_are_fifteen():
    assert len(NAMES) == 15
    assert {name for name, *_ in QUICK + WHOLE} == set(NAMES)
    for name, module in STUDIES.items():
        asked = {function for function, found in vars(module).items() if isinstance(found, Model)}
        assert asked == {function for of, function in RUN if of == name}, name


def test_they_have_a_third_of_the_lines():
    """The texts that they stand for have 1,072 lines."""
    assert 3 * sum(len((FOLDER / f"{name}.py").read_text().splitlines()) for name in NAMES) <= 1072


def ask(name, function, **public) -> Program:
    return getattr(STUDIES[name], function).program(**public)


def test_which_leaks_no_more():
    assert refine(ask("password", "early"), ask("password", "whole")).refines
    smudge, scrambled = ask("pinpad", "smudge_of_four"), ask("pinpad", "scrambled")
    plain, blinded = ask("modexp", "plain"), ask("modexp", "blinded")
    for a, b in ((smudge, scrambled), (scrambled, smudge), (plain, blinded), (blinded, plain)):
        assert not refine(a, b).refines
    assert refine(plain, ask("modexp", "ladder")).refines
    fresh, both, kept = (ask("telemetry", "reports", **public) for public in ({"kept": False}, {}, {"fresh": False}))
    assert refine(fresh, kept).refines and refine(kept, both).refines


def test_tries_classes_and_capacities():
    """A set of one to four digits is seen: 10 + 45 + 120 + 210; a new layout shows which digits are equal, in one of five ways."""
    assert ask("pinpad", "smudge").reach(Fraction(1, 2)).tries == 14
    assert len(ask("pinpad", "smudge").hyper().inners) == 385 and len(ask("pinpad", "scrambled").hyper().inners) == 5
    oracle = ask("padding_oracle", "oracle").hyper()
    assert len(oracle.inners) == 60 and sum(len(inner.distribution) == 1 for inner in oracle.inners) == 56
    assert ask("telemetry", "reports").capacity() == Fraction(5855, 4096)
    assert len(ask("telemetry", "reports", days=30, kept=True).hyper().inners) == 31
    assert len(ask("password", "early_pin").hyper().inners) == 997


def test_privacy_of_the_telemetry():
    """The likelihood ratio of seven days: 3^7, 3, and (3^8 + 1) / (3^7 + 3)."""
    for public, ratio in (({"kept": False}, 2187), ({"fresh": False}, 3), ({}, Fraction(3281, 1095))):
        rows = ask("telemetry", "reports", **public).channel().rows
        assert max(max(p / q, q / p) for p, q in zip(rows[0], rows[1])) == ratio


def test_phishing_at_the_rate_limit():
    """Who writes to a name gains 10 where it exists, and loses 1 where it doesn't."""
    gain = measures.gain_table({"write": lambda exists: 10 if exists else -1, "nothing": lambda exists: 0}, [False, True])
    for public, worth in (({}, "2"), ({"per_name": True}, "1068/625"), ({"per_name": True, "hashes_all": True}, "6/5")):
        assert ask("rate_limit", "logins", **public).leak(gain).posterior_vulnerability == Fraction(worth)


def test_logs_put_together():
    log, debug = ask("logs", "log"), ask("logs", "log", debug=True)
    assert choice(log, debug, Fraction(99, 100)).both == Fraction(103, 25)
    assert cascade(log, ask("logs", "collector")).both == 2


def test_the_table_of_aes():
    """Known entries of the S-box, and that each number stands in it once."""
    table = STUDIES["aes_cache"].SBOX
    assert [table[i] for i in (0, 1, 0x53, 0xFF)] == [0x63, 0x7C, 0xED, 0x16] and sorted(table) == list(range(256))


def test_the_cache_by_hand():
    """For one plaintext, all that is seen of a key: the line of the first look-up, and that of the second."""
    table = STUDIES["aes_cache"].SBOX
    seen = {((17 ^ a) // 16, (table[17 ^ a] ^ b) // 16) for a, b in product(range(256), repeat=2)}
    assert Fraction(len(seen), 65536) == Fraction(1, 256)
