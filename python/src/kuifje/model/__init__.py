"""Models written in Python: a function under ``@model`` becomes a program in the language, of which each line knows its Python line.

Three studies, as models::

    from kuifje.model import Noise, Public, Secret, choose, flip, hide, model, observe, one_of, uniform

    @model
    def early(pin: Secret = [uniform(range(4))] * 3, guess: Public = [one_of(range(4))] * 3):
        for i in range(3):              # unrolled; pin has three variables, pin_0 to pin_2
            if pin[i] != guess[i]:      # a guard: its truth is seen
                break

    @model
    def telemetry(bit: Secret = choose({0: 9, 1: 1}), days: Public = 7):
        memo = choose((bit, 3), (1 - bit, 1))       # a draw: pairs of a value and its weight
        for day in range(days):
            observe(choose((memo, 3), (1 - memo, 1)))

    @model
    def square_and_multiply(exponent: Secret = uniform(range(12))):
        time = 0
        for i in range(4):
            time += 1
            if hide(exponent >> i & 1):     # a branch that isn't seen; it only assigns
                time += 1
        observe(time)

    early.program(guess=[0, 0, 0]).leak()   # a Program, as all others
    early.text(guess=[0, 0, 0])             # its text, to keep and to read
    early.runs(guess=[0, 0, 0])             # the runs, by Python itself

A parameter is annotated as ``Secret``, ``Noise`` or ``Public``. The default of a secret and of noise is a distribution, a list of them for an array,
or a function of earlier parameters that draws one (``lambda age: choose(..)``, whose parameters are earlier names). The default of a public input is
its value, or ``one_of(..)`` with the values that it may take.
"""

from .declare import Distribution, Domain, Noise, Parameter, Public, Role, Secret, choose, flip, hide, observe, one_of, uniform
from .errors import BadModel, Place
from .interpret import EndlessLoop, Run, Seen
from .models import Model, model
from .write import Translation

__all__ = [
    "BadModel",
    "Distribution",
    "Domain",
    "EndlessLoop",
    "Model",
    "Noise",
    "Parameter",
    "Place",
    "Public",
    "Role",
    "Run",
    "Secret",
    "Seen",
    "Translation",
    "choose",
    "flip",
    "hide",
    "model",
    "observe",
    "one_of",
    "uniform",
]
