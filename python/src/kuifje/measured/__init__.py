"""Compiled code, measured: it runs on every assignment of its bounded inputs, and the proved program judges what an observer sees of all runs.

``measure`` builds a harness and runs it, or writes one for a function of a library; ``Measurement`` has the questions. docs/MEASURED.md says what is
exact, and what is assumed.
"""

from .assertions import leaks
from .builds import Build, Entries, bytes_of
from .first_told import FirstTold, first_told
from .functions import MeasuredFunction, measured
from .lines import Lines, Parting, Told
from .measurement import Comparison, Measurement, NewlyTold, measure
from .models import MODELS, Model
from .refusals import Unmeasured
from .texts import MeasuredProgram, Partition
from .traces import Limits
from .trials import Tried, tried_against

__all__ = [
    "Build",
    "Comparison",
    "Entries",
    "FirstTold",
    "Limits",
    "Lines",
    "MODELS",
    "MeasuredFunction",
    "MeasuredProgram",
    "Measurement",
    "Model",
    "NewlyTold",
    "Partition",
    "Parting",
    "Told",
    "Tried",
    "Unmeasured",
    "bytes_of",
    "first_told",
    "leaks",
    "measure",
    "measured",
    "tried_against",
]
