"""Verdicts of refinement on programs that are too large for ``refine``: a certificate is found by any means, and the proved program checks it.

What is proved is the verdict, since ``kuifje check`` accepts a certificate only where it proves what it says. What isn't proved is the search: these
modules may miss a verdict, and can't make a wrong one. The terms are those of *The Science of Quantitative Information Flow* (2020), chapter 9.
"""

from .decisions import Decision, decide
from .within import Limit, Within, at_most, check_within, distance, ratio

__all__ = ["Decision", "Limit", "Within", "at_most", "check_within", "decide", "distance", "ratio"]
