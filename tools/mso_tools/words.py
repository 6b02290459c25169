"""Light words of a matrix: small circuits and small cocircuits, found by a random walk of basis changes."""

from __future__ import annotations

from collections.abc import Callable, Iterable
from itertools import accumulate
from random import Random
from typing import Optional, Union

from .fields import Field, lead, support
from .linear import number_of_support, places_of

Word = frozenset[int]

_ROUNDS = 12


def light_words(field: Field, sides: Iterable[list[bytes]], chance: Random, going_on: Callable[[], bool]) -> set[Word]:
    """The lightest supports of the row spaces of `sides` that a walk met, each set once.

    Each side is a basis in reduced echelon form. The walk ends after some rounds of as many changes as there are rows, or where
    `going_on` says no.
    """
    found: set[Word] = set()
    for rows in sides:
        basis: _Basis = _BinaryBasis(rows) if field.order == 2 else _DigitBasis(field, rows)
        columns = len(rows[0]) if rows else 0
        found.update(lightest_words(_walk(basis, chance, going_on), None)[: 3 * columns])
    return found


class _BinaryBasis:
    """A basis over GF(2), its rows as whole numbers."""

    def __init__(self, rows: list[bytes]) -> None:
        self.rows = [number_of_support(row) for row in rows]

    def change(self, chance: Random) -> None:
        """Clears a random column of a random row from all other rows."""
        chosen = chance.randrange(len(self.rows))
        row = self.rows[chosen]
        bit = 1 << chance.choice(places_of(row))
        self.rows = [other ^ row if other & bit else other for other in self.rows]
        self.rows[chosen] = row

    def words(self) -> set[Word]:
        """The supports of the rows."""
        return {frozenset(places_of(row)) for row in self.rows}


class _DigitBasis:
    """A basis over any of the fields."""

    def __init__(self, field: Field, rows: list[bytes]) -> None:
        self.field = field
        self.rows = list(rows)

    def change(self, chance: Random) -> None:
        """Clears a random column of a random row from all other rows."""
        field = self.field
        chosen = chance.randrange(len(self.rows))
        place = chance.choice(support(self.rows[chosen]))
        row = field.scaled(self.rows[chosen], field.inverse(self.rows[chosen][place]))
        for number, other in enumerate(self.rows):
            if number != chosen and other[place]:
                self.rows[number] = field.plus_multiple(other, field.negative(other[place]), row)

    def words(self) -> set[Word]:
        """The supports of the rows."""
        return {frozenset(support(row)) for row in self.rows}


_Basis = Union[_BinaryBasis, _DigitBasis]


def _walk(basis: _Basis, chance: Random, going_on: Callable[[], bool]) -> set[Word]:
    """The supports of the rows of some bases, from the given one on."""
    seen = basis.words()
    changes = _ROUNDS * len(basis.rows)
    for number in range(changes):
        if not going_on():
            break
        basis.change(chance)
        if number % len(basis.rows) == 0:
            seen |= basis.words()
    return seen | basis.words()


def words_of_rows(rows: list[bytes]) -> list[Word]:
    """The supports of rows that are not zero."""
    return [frozenset(support(row)) for row in rows if lead(row) < len(row)]


def lightest_words(words: Iterable[Word], size: Optional[int]) -> list[Word]:
    """Words by weight, each once, the lightest first; with a size, those that have so many elements in all at most."""
    ordered = sorted(set(words), key=lambda word: (len(word), sorted(word)))
    if size is None:
        return ordered
    totals = accumulate(len(word) for word in ordered)
    return [word for word, total in zip(ordered, totals) if total <= size]
