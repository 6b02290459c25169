"""Questions in a user's words, as query lines: for each the form that needs the fewest states.

Many questions are asked of the dual matroid, since independence is told of the chosen set alone, never of the rest: a cut is a
circuit of the dual. Lightest sets let the weights decide where they can.
"""

from __future__ import annotations

from collections.abc import Sequence
from dataclasses import dataclass
from itertools import combinations
from typing import Optional

from .errors import Exit, ToolError
from .matroid import WEIGHT_LIMIT

CIRCUIT = "not ind(X) and all Y (not Y sub X or Y = X or ind(Y))"
DEPENDENT = "not ind(X)"
INDEPENDENT = "ind(X)"


@dataclass(frozen=True)
class Least:
    """A lightest set: `least X` and a formula, of the matroid or its dual.

    `lowered` is taken off the weight of `link`, or of every element where there is no such link. So a lightest independent set
    is a basis, and a lightest circuit has the link where any circuit has it.
    """

    what: str
    formula: str
    on_dual: bool
    lowered: int
    link: Optional[int]

    @property
    def line(self) -> str:
        """The query line."""
        return f"least X {self.formula}"

    def weight_in_job(self, element: int, weight: int) -> int:
        """The weight that an element has in the job, where it has `weight` in the file."""
        return weight - self.lowered if self.link in (None, element) else weight


@dataclass(frozen=True)
class Decide:
    """A yes or no: `decide` and a formula, of the matroid or its dual."""

    what: str
    formula: str
    on_dual: bool

    @property
    def line(self) -> str:
        """The query line."""
        return f"decide {self.formula}"


def lightest(what: str, weights: Sequence[int]) -> Least:
    """The lightest set of a kind in `LIGHTEST`; `weights` has all weights that elements ever have, those of edits too."""
    kind = LIGHTEST[what]
    if kind == "basis":
        return Least(what, INDEPENDENT, False, more_than_all(weights), None)
    formula = DEPENDENT if min(weights) >= 0 else CIRCUIT
    return Least(what, formula, kind == "cocircuit", 0, None)


def lightest_between(what: str, weights: Sequence[int], link: int) -> Least:
    """The lightest path or cut between the two ends of a link that was put between them: a circuit, or cut, through it."""
    return Least(what, CIRCUIT, what == "cut", more_than_all(weights), link)


def more_than_all(weights: Sequence[int]) -> int:
    """A number that no sum of the weights outweighs."""
    number = 1 + sum(abs(weight) for weight in weights)
    if number + max(abs(weight) for weight in weights) > WEIGHT_LIMIT:
        raise ToolError(Exit.REFUSED, "the weights are too large for this question: their sum must stay below 10^12")
    return number


LIGHTEST = {
    "cycle": "circuit",
    "cut": "cocircuit",
    "tree": "basis",
    "path": "circuit",
    "codeword": "circuit",
    "dual-codeword": "cocircuit",
    "circuit": "circuit",
    "cocircuit": "cocircuit",
    "basis": "basis",
}
"""What can be asked for by `--lightest`."""

_CONNECTED = "all x all y (x = y or ex I (ind(I|x) and ind(I|y) and not ind(I|x|y)))"
_THREE_CONNECTED = (
    "all a all b all c all d (a = b or a = c or a = d or b = c or b = d or c = d or"
    " ex I (ind(I|a|b) and ind(I|c|d) and not ind(I|a|b|c) and not ind(I|a|b|d)))"
)
_PAIRS_INDEPENDENT = "all x all y ind(x|y)"
_COVERED = "ex A (ind(A) and all B (ind(B) or ex z (z in A and z in B)))"

_PROPERTIES = {
    "loopless": Decide("no element is a loop", "all x ind(x)", False),
    "simple": Decide("no element is a loop, and no two are parallel", _PAIRS_INDEPENDENT, False),
    "connected": Decide("each two elements lie in a common circuit", _CONNECTED, False),
    "3-connected": Decide("the matroid has no 1-separation and no 2-separation", _THREE_CONNECTED, False),
    "cosimple": Decide("each cut has three elements or more", _PAIRS_INDEPENDENT, True),
    "survives-1": Decide("no failure of one link cuts the network", "all x ind(x)", True),
    "survives-2": Decide("no failure of two links cuts the network", _PAIRS_INDEPENDENT, True),
    "survives-3": Decide("no failure of three links cuts the network", "all x all y all z ind(x|y|z)", True),
    "two-independent": Decide("two independent sets cover all elements", _COVERED, False),
    "two-bases": Decide("there are two disjoint bases (two spanning trees without a common link)", _COVERED, True),
}

PROPERTIES = tuple(_PROPERTIES)
"""What can be asked by `--is`."""


def property_named(name: str, count: int) -> Decide:
    """The question of a word of `PROPERTIES`, for a matroid with so many elements."""
    if name == "3-connected" and count < 4:
        raise ToolError(Exit.REFUSED, "3-connected is asked of four elements or more")
    return _PROPERTIES[name]


# ---------------------------------------------------------------- minors


@dataclass(frozen=True)
class _BinaryMinor:
    """A binary matroid: a basis of `rank` elements, and for each further element the basis elements that it is the sum of."""

    rank: int
    columns: tuple[tuple[int, ...], ...]

    def formula(self) -> str:
        """Over GF(2): contract C, and find the basis and then each column by itself."""
        basis = [f"b{row}" for row in range(1, self.rank + 1)]
        conditions = [f"ind({'|'.join(['C', *basis])})"]
        covered = {pair for column in self.columns for pair in combinations(column, 2)}
        for one, other in combinations(range(1, self.rank + 1), 2):
            if (one, other) not in covered:
                conditions.append(f"not b{one} = b{other}")
        conditions += [f"ex x ({self._is_sum(column)})" for column in self.columns]
        return "".join(f"ex {name} " for name in [*basis, "C"]) + "(" + " and ".join(conditions) + ")"

    @staticmethod
    def _is_sum(column: tuple[int, ...]) -> str:
        """x is the sum of the basis elements: with all of them dependent over C, without any one of them independent."""
        names = [f"b{row}" for row in column]
        without = [[name for name in names if name != left_out] for left_out in names]
        independent = [f"ind({'|'.join(['C', *rest, 'x'])})" for rest in without]
        return " and ".join([f"not ind({'|'.join(['C', *names, 'x'])})", *independent])


_BINARY_MINORS = {
    "K4": _BinaryMinor(3, ((1, 2), (1, 3), (2, 3))),
    "Fano": _BinaryMinor(3, ((1, 2), (1, 3), (2, 3), (1, 2, 3))),
    "K5": _BinaryMinor(4, ((1, 2), (1, 3), (1, 4), (2, 3), (2, 4), (3, 4))),
    "K3,3": _BinaryMinor(5, ((1, 2, 4), (1, 3, 4), (1, 2, 5), (1, 3, 5))),
    "R10": _BinaryMinor(5, ((1, 2, 5), (1, 2, 3), (2, 3, 4), (3, 4, 5), (1, 4, 5))),
}

_FOUR_POINT_LINE = (
    "ex x ex y ex z ex w ex C ("
    + " and ".join(f"ind(C|{one}|{other})" for one, other in combinations("xyzw", 2))
    + " and not ind(C|x|y|z) and not ind(C|x|y|w) and not ind(C|x|z|w))"
)

MINORS = ("U2,4", "K4", "Fano", "Fano-dual", "K5", "K3,3", "R10")
"""What can be asked by `--minor`."""


def minor_named(name: str, order: int) -> Decide:
    """The question whether a matroid over the field with `order` elements has the named minor."""
    known = next((known for known in MINORS if known.upper() == name.upper()), None)
    if known is None:
        raise ToolError(Exit.USAGE, f"no minor `{name}` is known here: {', '.join(MINORS)}")
    if known == "U2,4":
        return Decide("U2,4 is a minor", _FOUR_POINT_LINE, False)
    if order != 2:
        raise ToolError(Exit.REFUSED, f"the minor {known} is asked over GF(2) alone, and this is GF({order})")
    minor = _BINARY_MINORS[known.removesuffix("-dual")]
    return Decide(f"{known} is a minor", minor.formula(), known.endswith("-dual"))
