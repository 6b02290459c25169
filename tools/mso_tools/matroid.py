"""What every file is read into: a matrix whose columns have labels and weights."""

from __future__ import annotations

import re
from collections.abc import Sequence
from dataclasses import dataclass
from decimal import Decimal, InvalidOperation
from typing import Optional

from .errors import refused
from .fields import field
from .linear import reduced_echelon

ELEMENT_LIMIT = 4096
"""The most elements that `mso build` takes."""
ROW_LIMIT = 4096
"""The most rows that `mso` takes."""
WEIGHT_LIMIT = 10**12
"""The greatest weight that `mso` takes, and with a minus sign the least."""

_NAME = re.compile(r"[a-z][a-z0-9_]{0,15}")


@dataclass(frozen=True)
class Labels:
    """How the user calls the elements, and the names that they have in texts for `mso`."""

    labels: list[str]
    names: list[str]

    @classmethod
    def of(cls, labels: Sequence[str], stem: str) -> "Labels":
        """Names made of the labels where that gives names, all different; else the stem and a number from 1 each."""
        made = [re.sub(r"[^a-z0-9]+", "_", label.lower()) for label in labels]
        if len(set(made)) == len(made) and all(_NAME.fullmatch(name) for name in made):
            return cls(list(labels), made)
        return cls(list(labels), [f"{stem}{number}" for number in range(1, len(labels) + 1)])

    def label_of(self) -> dict[str, str]:
        """The labels by names."""
        return dict(zip(self.names, self.labels))

    def table(self) -> str:
        """One line for each element: its name, a tab, its label."""
        return "".join(f"{name}\t{label}\n" for name, label in zip(self.names, self.labels))


@dataclass(frozen=True)
class Weights:
    """Whole weights, and the number by which the weights of the file were multiplied to make them whole."""

    whole: list[int]
    scale: int

    def shown(self, weight: int) -> str:
        """A sum of whole weights, in the units of the file."""
        value = Decimal(weight) / self.scale
        return format(value.normalize(), "f") if weight else "0"


@dataclass(frozen=True)
class Matroid:
    """A matrix over the field with `order` elements; its columns are the elements, in the order of the file."""

    order: int
    rows: list[bytes]
    labels: Labels
    weights: Weights

    @property
    def count(self) -> int:
        """The number of elements."""
        return len(self.labels.names)


def rows_that_fit(order: int, rows: list[bytes]) -> list[bytes]:
    """The rows, or a basis of what they span where they are more than `mso` takes."""
    return rows if len(rows) <= ROW_LIMIT else reduced_echelon(field(order), rows).rows


def read_weight(path: str, line: Optional[int], text: str) -> Decimal:
    """A weight as it is written in a file, with or without a decimal point."""
    try:
        weight = Decimal(text)
    except InvalidOperation:
        raise refused(path, line, f"`{text}` is no weight: a number such as 3, -2 or 0.25 is needed") from None
    if not weight.is_finite():
        raise refused(path, line, f"`{text}` is no weight: it has no end")
    return weight


def whole_weights(path: str, weights: Sequence[tuple[Decimal, Optional[int]]]) -> Weights:
    """The weights, each with its line, times the least power of ten that makes them whole."""
    places = max((-int(weight.normalize().as_tuple().exponent) for weight, _ in weights), default=0)
    scale = 10 ** min(max(places, 0), 30)
    for weight, line in weights:
        if abs(weight) > WEIGHT_LIMIT or abs(weight * scale) > WEIGHT_LIMIT or places > 30:
            raise refused(path, line, f"weight {weight} does not fit: with {max(places, 0)} decimals it may be 10^12 at most")
    return Weights([int(weight * scale) for weight, _ in weights], scale)


def check_count(path: str, count: int) -> None:
    """Refuses what is too large for `mso build`, and what has no element."""
    if count == 0:
        raise refused(path, None, "there is no element in it")
    if count > ELEMENT_LIMIT:
        raise refused(path, None, f"{count} elements: `mso build` takes {ELEMENT_LIMIT} at most")
