"""Repairs: programs that leak less and still do what they are for, each judged by the proved program; of compiled code hints alone."""

from .hints import CodeHint, code_hints
from .purposes import BadPurpose, Floor, floor
from .search import Repair, Repairs, repair

__all__ = ["BadPurpose", "CodeHint", "Floor", "Repair", "Repairs", "code_hints", "floor", "repair"]
