"""The Python blocks of README.md run as they stand there, one after the other, and print what is worked out by hand."""

import re
import subprocess
from fractions import Fraction
from pathlib import Path

import pytest

pytest.importorskip("matplotlib")
pytest.importorskip("pandas")
pytest.importorskip("jinja2")
pytest.importorskip("rich")

README = (Path(__file__).resolve().parents[1] / "README.md").read_text()
EXAMPLES = Path(__file__).resolve().parents[2] / "examples"


def blocks(kind):
    return re.findall(rf"^```{kind}\n(.*?)^```$", README, flags=re.MULTILINE | re.DOTALL)


@pytest.mark.usefixtures("built")
def test_blocks_run(tmp_path, monkeypatch, capsys):
    """One guess at a lock of ten numbers is right with probability 1/10 + 9/10 · 1/9; of a bit that is told through two liars 5/8 + 5/8 is shown.

    A guess at the level that is shown is right with probability 1 - 1/8 at least, since a wrong level costs at least 1; the channel that moves 1/8 of
    the levels by 1 leaks no more. Of 10,000 tokens a bet on one that shares its last digit with another, and loses as much there, is worth nothing to
    an observer of that digit. An observer of two digits takes it where it may win: with probability 1/10,000. The last digit of a PIN of four leaves
    1,000 values. The numbers of losses and of a loop that chance ends are worked out in their own tests.
    """
    monkeypatch.chdir(tmp_path)
    Path("lock.kf.j2").write_text(next(text for text in blocks("text") if "{% for" in text))
    names = {}
    for number, block in enumerate(blocks("python")):
        Path(f"block_{number}.py").write_text(block)  # models are read from their files
        exec(compile(block, f"block_{number}.py", "exec"), names)
    printed = capsys.readouterr().out.splitlines()
    assert printed[0].startswith("What an observer learns about pin, as it was") and printed[1] == "1/5"
    at = printed.index("5/4")
    assert printed[at - 1 : at + 1] == ["True", "5/4"] and "6 unseen-last-turn" in printed and "inner 1 outer 1/10" in printed
    assert "worth 0 1/10000" in printed
    at = printed.index("least 7/8 at the price 1")
    assert printed[at + 1 : at + 3] == ["proved program 7/8", "no channel leaks less True"]
    assert "above the floor: True" in printed
    assert {"5/6", "3/2 1/2", "52231/131072 True", "1/1000", "107/100 7/800"} <= set(printed)
    begins = ("refines", "gain bayes, ", "rounds 2, ", "value 7/16", "@@ -1,6 ", "@@ -3,6 ")
    for shown in (next(text for text in blocks("text") if text.startswith(words)).splitlines() for words in begins):
        at = printed.index(shown[0])
        assert printed[at : at + len(shown)] == shown
    assert Path("lock.svg").stat().st_size > 1000 and len(list(Path("answers").iterdir())) == 24


@pytest.mark.usefixtures("built")
def test_the_policy_holds_for_the_gallery_s_files(tmp_path):
    """Of nine PINs one is told from the others: 1/9 + 8/9 · 1/8 is 2/9, and to find it takes 1/9 · 1 + 8/9 · 9/2 guesses. The other way round, for
    the PIN that is compared digit by digit, no rule holds but the last one: 3/9, 3 columns, 25/9 guesses."""
    testing = pytest.importorskip("click.testing")
    from kuifje.lab import main

    def git(*words):
        subprocess.run(["git", "-C", tmp_path, "-c", "user.name=a", "-c", "user.email=a@b", *words], check=True, capture_output=True)

    assert Fraction(1, 9) + Fraction(8, 9) * Fraction(9, 2) == Fraction(37, 9)
    for name in ("pin.kf", "pin_whole.kf"):
        (tmp_path / name).write_text((EXAMPLES / name).read_text())
    git("init", "-q", "-b", "main")
    git("add", "pin.kf", "pin_whole.kf")
    git("commit", "-qm", "one")
    policy, printed = [text for text in blocks("text") if text.startswith(("[[program]]", "pin_whole.kf: "))]
    (tmp_path / "policy.toml").write_text(policy)
    found = testing.CliRunner().invoke(main, ["gate", str(tmp_path / "policy.toml")])
    assert (found.exit_code, found.output) == (0, printed)
    (tmp_path / "policy.toml").write_text(policy.replace("pin_whole", "PIN").replace("pin.kf", "pin_whole.kf").replace("PIN", "pin"))
    found = testing.CliRunner().invoke(main, ["gate", str(tmp_path / "policy.toml")])
    assert found.exit_code == 1 and [line.split(": ")[2] for line in found.output.splitlines()] == ["does not hold"] * 4 + ["holds"]


def test_the_first_block_has_ten_lines():
    assert len(blocks("python")[0].splitlines()) <= 11 and "lock" in blocks("python")[0]


@pytest.mark.usefixtures("built")
def test_the_model_is_the_text_that_is_shown(tmp_path, monkeypatch):
    """The text below the model, its numbers by hand, and a refusal; all are of a file pin.py."""
    from kuifje.model import BadModel

    monkeypatch.chdir(tmp_path)
    block = next(block for block in blocks("python") if "def early" in block)
    Path("pin.py").write_text(block)
    names = {}
    exec(compile(block, "pin.py", "exec"), names)
    assert names["text"] in blocks("text")
    assert names["leak"].prior_vulnerability == Fraction(1, 64) and names["leak"].posterior_vulnerability == Fraction(5, 16)
    assert str(names["same"]) == str(names["early"].program().hyper())
    Path("wrong.py").write_text(
        block.replace("pin[i] != guess[i]:              # the place of the first difference is seen", "pin[tried + 1] != guess[i]:")
    )
    with pytest.raises(BadModel) as caught:
        exec(compile(Path("wrong.py").read_text(), "wrong.py", "exec"), {})
    assert str(caught.value).replace("wrong.py", "pin.py") + "\n" in blocks("text")
