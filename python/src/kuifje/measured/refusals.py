"""Why code couldn't be measured: each cause has its own word, its place, and the secret with which it came up."""

from __future__ import annotations

from dataclasses import dataclass

from ..errors import KuifjeError

__all__ = ["Unmeasured", "WORDS"]

WORDS = {
    "Build": "the harness wasn't built",
    "Tools": "a tool that this needs isn't installed",
    "Earlier": "a run depends on earlier runs",
    "Unwritten": "a run depends on memory or registers that nobody wrote",
    "Clock": "a run depends on the clock, or on something else that isn't declared",
    "Random": "a run draws random numbers that aren't declared",
    "Threads": "another thread or process is started",
    "Ended": "a run ends the process",
    "Waits": "a run waits for something that isn't declared",
    "Crash": "a run is ended by a signal",
    "Undecoded": "an instruction isn't followed",
    "Lost": "events were lost",
    "Disagree": "the emulator and the processor differ",
    "Unchecked": "no run of the emulator was compared with the processor's",
    "Divisions": "the operands of divisions were not seen in all runs",
    "Endless": "a run doesn't end within the bound of instructions",
    "Folded": "no run reads a secret",
    "Nothing": "nothing depends on anything",
    "Large": "a bound of this package is passed",
    "Text": "the text doesn't say what was measured",
}


@dataclass
class Unmeasured(KuifjeError):
    """There is no measurement, or no answer from it. ``word`` is one of ``WORDS``, ``place`` a line of the code, or a symbol, where there is one."""

    word: str
    why: str
    place: str | None = None
    secret: str | None = None

    def __str__(self) -> str:
        place = f"{self.place}: " if self.place else ""
        secret = f" (secret: {self.secret})" if self.secret else ""
        return f"{place}{self.word}: {self.why}{secret}"

    def __reduce__(self) -> tuple[type[Unmeasured], tuple[object, ...]]:
        return Unmeasured, (self.word, self.why, self.place, self.secret)
