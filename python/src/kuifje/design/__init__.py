"""Channels that leak as little as they can and still serve: designs, each with a proof that a short function checks.

The search isn't proved, and needn't be. What a channel leaks is the proved program's answer (``confirm``). That none leaks less is shown by a price
and a strategy, from which ``check_optimum`` computes a lower bound for all channels. All numbers are exact fractions. The terms are those of *The
Science of Quantitative Information Flow* (2020).
"""

from .confirmed import Confirmed, Rounded, confirm, rounded
from .mechanisms import exponential, planar_geometric, randomised_response, remapped, truncated_geometric
from .optimum import Corner, Optimum, check_optimum, optimal, tradeoff
from .privacy import Bracket, MostUseful, Neighbours, check_most_useful, least_factor, least_loss
from .tasks import Aim, Infeasible, Loss

__all__ = [
    "Aim",
    "Bracket",
    "Confirmed",
    "Corner",
    "Infeasible",
    "Loss",
    "MostUseful",
    "Neighbours",
    "Optimum",
    "Rounded",
    "check_most_useful",
    "check_optimum",
    "confirm",
    "exponential",
    "least_factor",
    "least_loss",
    "optimal",
    "planar_geometric",
    "randomised_response",
    "remapped",
    "rounded",
    "tradeoff",
    "truncated_geometric",
]
