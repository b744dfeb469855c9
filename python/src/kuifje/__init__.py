"""Exact, proved quantitative information flow: what an observer of a program learns.

Questions go to the proved program; numbers are exact. The terms are those of Alvim, Chatzikokolakis, McIver, Morgan, Palamidessi and Smith, *The
Science of Quantitative Information Flow* (2020).
"""

from .channels import Channel
from .engine import Engine, default_engine
from .errors import Infeasible, KuifjeError, OutOfTime, Refusal, TooLarge
from .observations import Label, Labels, Plan, labels, plan
from .lints import Hint, Hints, lint
from .notebook import load_ipython_extension
from .orders import Order, Pair, order
from .program import Certificate, Program, cascade, certificate, check, choice, covers, parallel, refine
from .texts import (
    Action,
    Attack,
    Blame,
    Composition,
    GainTable,
    Hyper,
    Inner,
    Leakage,
    Lines,
    Mark,
    Reach,
    TraceTable,
    Trail,
    Verdict,
)
from .values import Value, format_value, parse_value

__version__ = "0.1.0"

__all__ = [
    "Action",
    "Attack",
    "Blame",
    "Certificate",
    "Channel",
    "Composition",
    "Engine",
    "GainTable",
    "Hint",
    "Hints",
    "Hyper",
    "Infeasible",
    "Inner",
    "KuifjeError",
    "Label",
    "Labels",
    "Leakage",
    "Lines",
    "Mark",
    "Order",
    "OutOfTime",
    "Pair",
    "Plan",
    "Program",
    "Reach",
    "Refusal",
    "TooLarge",
    "TraceTable",
    "Trail",
    "Value",
    "Verdict",
    "cascade",
    "certificate",
    "check",
    "choice",
    "covers",
    "default_engine",
    "format_value",
    "labels",
    "lint",
    "load_ipython_extension",
    "order",
    "parallel",
    "parse_value",
    "plan",
    "refine",
]
