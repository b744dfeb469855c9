"""What is seen of a run, by name: which kinds of events, and addresses in which units."""

from __future__ import annotations

from dataclasses import dataclass

__all__ = ["MODELS", "Model", "model_named"]

TRANSFER, LOAD, STORE, DIVISION, OPERAND, SEEN, RETURNED, CALLED, ANSWERED = range(1, 10)
KINDS = {
    TRANSFER: "control flow",
    LOAD: "load",
    STORE: "store",
    DIVISION: "division",
    OPERAND: "operand of a division",
    SEEN: "sent",
    RETURNED: "returned",
    CALLED: "system call",
    ANSWERED: "answer of the system",
}


@dataclass(frozen=True)
class Model:
    """An observer: the kinds of events that it sees, and addresses in units of 2^``shift`` bytes. All see what is sent."""

    name: str
    kinds: tuple[int, ...]
    shift: int = 0

    @property
    def mask(self) -> int:
        """The kinds as bits."""
        return sum(1 << kind for kind in self.kinds)

    @property
    def follows_control(self) -> bool:
        """Whether it sees each transfer of control, so that two runs with one history are at one place."""
        return TRANSFER in self.kinds

    @property
    def needs_operands(self) -> bool:
        """Whether it sees what is divided."""
        return OPERAND in self.kinds

    def __str__(self) -> str:
        return self.name


_MEMORY = (TRANSFER, LOAD, STORE, SEEN)
MODELS = {
    "control-flow": Model("control-flow", (TRANSFER, SEEN)),
    "lines": Model("lines", _MEMORY, 6),
    "banks": Model("banks", _MEMORY, 2),
    "pages": Model("pages", _MEMORY, 12),
    "constant-time": Model("constant-time", (*_MEMORY, DIVISION, OPERAND)),
    "sent": Model("sent", (SEEN,)),
    "returned": Model("returned", (SEEN, RETURNED)),
    "system-calls": Model("system-calls", (CALLED, SEEN)),
}


def model_named(name: str | Model) -> Model:
    """The model of this name; ``lines:32`` has another size of lines, a power of 2. Raises ``ValueError`` where there is none."""
    if isinstance(name, Model):
        return name
    word, is_sized, size = name.partition(":")
    found = MODELS.get(word)
    if found is None or (is_sized and word not in ("lines", "banks", "pages")):
        raise ValueError(f"{name!r} is no model: {', '.join(MODELS)}, and lines:32 of another size")
    if not is_sized:
        return found
    if not size.isdigit() or int(size) < 1 or int(size) & (int(size) - 1):
        raise ValueError(f"the size {size!r} is no power of 2")
    return Model(name, found.kinds, int(size).bit_length() - 1)
