"""Reductions that lose nothing: components apart, and series and parallel classes as one element each.

The least width of a matrix is that of its widest reduced component, but at least 1 where a column is not zero.
"""

from __future__ import annotations

from collections import deque
from collections.abc import Sequence
from dataclasses import dataclass
from .fields import Field
from .forms import Form, Forms, Vector
from .linear import Echelon, number_of_support, places_of
from .trees import Tree, balanced


@dataclass(frozen=True)
class Part:
    """Some elements that are joined already: their tree, their form, and the first of them in the given order."""

    tree: Tree
    form: Form
    first: int


class Classes:
    """Numbers from 0 that are put into classes, two at a time."""

    def __init__(self, count: int) -> None:
        self._above = list(range(count))

    def of(self, number: int) -> int:
        """The number that stands for the class."""
        while self._above[number] != number:
            self._above[number] = self._above[self._above[number]]
            number = self._above[number]
        return number

    def join(self, one: int, other: int) -> None:
        """Makes one class of two."""
        self._above[self.of(one)] = self.of(other)

    def lists(self) -> list[list[int]]:
        """The classes, each ascending, by their first numbers."""
        found: dict[int, list[int]] = {}
        for number in range(len(self._above)):
            found.setdefault(self.of(number), []).append(number)
        return list(found.values())


def components(echelon: Echelon, count: int) -> list[list[int]]:
    """The connected components of the matroid, as ascending lists of elements, by their first elements."""
    found: list[int] = []
    for row in echelon.rows:
        together = number_of_support(row)
        apart = []
        for component in found:
            if component & together:
                together |= component
            else:
                apart.append(component)
        found = [*apart, together]
    lists = [places_of(component) for component in found]
    met = {place for members in lists for place in members}
    return sorted(lists + [[place] for place in range(count) if place not in met])


def joined_classes(forms: Forms, parts: Sequence[Part]) -> list[Part]:
    """The parts with every series and every parallel class joined into one, again and again until nothing changes.

    They come in the order of their first elements.
    """
    joining = _Joining(forms, parts)
    while joining.waiting:
        joining.join_class(*joining.waiting.popleft())
    return sorted(joining.parts.values(), key=lambda part: part.first)


_SERIES, _PARALLEL = 0, 1


class _Joining:
    """Parts that are joined: those of one term are in series where their y, and parallel where their z, have one direction."""

    def __init__(self, forms: Forms, parts: Sequence[Part]) -> None:
        self.forms = forms
        self.parts: dict[int, Part] = {}
        self.classes: tuple[dict[Vector, set[int]], ...] = ({}, {})
        self.waiting: deque[tuple[int, Vector]] = deque()
        self._next = 0
        for part in parts:
            self._add(part)

    def _keys(self, part: Part) -> list[tuple[int, Vector]]:
        """The classes that a part is in: a side and a direction each."""
        if len(part.form) != 1:
            return []
        return [(side, self.forms.direction(part.form[0][side])) for side in (_SERIES, _PARALLEL)]

    def _add(self, part: Part) -> None:
        number = self._next
        self._next += 1
        self.parts[number] = part
        for side, direction in self._keys(part):
            members = self.classes[side].setdefault(direction, set())
            members.add(number)
            if len(members) == 2:
                self.waiting.append((side, direction))

    def _take(self, number: int) -> Part:
        part = self.parts.pop(number)
        for side, direction in self._keys(part):
            self.classes[side][direction].discard(number)
        return part

    def join_class(self, side: int, direction: Vector) -> None:
        """Makes one part of a class, where it still has two members or more."""
        members = sorted(self.classes[side][direction])
        if len(members) < 2:
            return
        taken = [self._take(number) for number in members]
        form: Form = ()
        for part in taken:
            form = self.forms.plus(form, part.form)
        self._add(Part(balanced([part.tree for part in taken]), form, min(part.first for part in taken)))


def reduced_columns(field: Field, parts: Sequence[Part], height: int) -> list[bytes]:
    """The columns of the reduced matrix, `height` digits each: one for each part, of one term, its z."""
    if field.order == 2:
        return [_column_of(part.form[0][1], height) for part in parts]
    return [part.form[0][1] for part in parts]


def _column_of(number: int, height: int) -> bytes:
    return bytes(48 ^ digit for digit in format(number, f"0{height}b").encode())
