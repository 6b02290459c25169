"""Which elements to take out so that a tree fits: deleted, or contracted, one at a time, each time the best one."""

from __future__ import annotations

from collections.abc import Iterator
from dataclasses import dataclass
from random import Random
from typing import Optional

from .clock import Slice
from .fields import Field
from .forms import element_forms, forms_over
from .improve import improved
from .trees import Tree, Widths, fold, widths

_MOST_REMOVALS = 6


@dataclass(frozen=True)
class Removal:
    """An element, and whether it is contracted or deleted."""

    element: int
    contracted: bool


@dataclass(frozen=True)
class _Minor:
    """A matrix with the elements that are left, named by their numbers at the beginning, and a tree of its columns."""

    field: Field
    rows: list[bytes]
    elements: list[int]
    tree: Tree

    def widths(self) -> Widths:
        """The boundaries of the tree."""
        return widths(self.tree, forms_over(self.field), element_forms(self.field, self.rows, len(self.elements)))

    def without(self, column: int, contracted: bool) -> "_Minor":
        """The minor without the element of a column."""
        rows = contracted_rows(self.field, self.rows, column) if contracted else self.rows
        rows = [row[:column] + row[column + 1 :] for row in rows]
        elements = self.elements[:column] + self.elements[column + 1 :]
        return _Minor(self.field, rows, elements, _tree_without(self.tree, column))

    def improved(self, seconds: float, chance: Random) -> "_Minor":
        """The same minor with a cheaper tree, where one was found."""
        parts = element_forms(self.field, self.rows, len(self.elements))
        tree = improved(self.tree, forms_over(self.field), parts, Slice(None, seconds), chance)
        return _Minor(self.field, self.rows, self.elements, tree)


def contracted_rows(field: Field, rows: list[bytes], column: int) -> list[bytes]:
    """Rows that span the combinations with the digit 0 in a column: the matroid with that element contracted."""
    pivot = next((row for row in rows if row[column]), None)
    if pivot is None:
        return rows
    scaled = field.scaled(pivot, field.negative(field.inverse(pivot[column])))
    return [field.plus_multiple(row, row[column], scaled) for row in rows if row is not pivot]


def _tree_without(tree: Tree, column: int) -> Tree:
    """The tree without a leaf; the numbers above it fall by one."""

    def leaf(number: int) -> Optional[Tree]:
        return None if number == column else number - (number > column)

    def join(left: Optional[Tree], right: Optional[Tree]) -> Optional[Tree]:
        return right if left is None else left if right is None else (left, right)

    rest: Optional[Tree] = fold(tree, leaf, join)
    assert rest is not None
    return rest


def shrunk(field: Field, rows: list[bytes], tree: Tree, count: int, limit: int, seconds: float) -> Optional[list[Removal]]:
    """A few elements whose removal makes the tree, improved a little after each, at most `limit` wide; None where a few
    are not enough.

    `tree` has four leaves or more.
    """
    minor = _Minor(field, rows, list(range(count)), tree)
    chance = Random(1)
    removals: list[Removal] = []
    while len(removals) < min(_MOST_REMOVALS, count - 3):
        removal, minor = min(_one_removed(minor), key=lambda pair: pair[1].widths().cost)
        removals.append(removal)
        minor = minor.improved(seconds, chance)
        if minor.widths().width <= limit:
            return removals
    return None


def _one_removed(minor: _Minor) -> Iterator[tuple[Removal, _Minor]]:
    """Each element deleted, and each contracted."""
    for column, element in enumerate(minor.elements):
        for contracted in (False, True):
            yield Removal(element, contracted), minor.without(column, contracted)
