"""How far a set of elements and the rest are bound together, for sets that gain and lose parts.

With y_e the column of element e in a basis of the rows orthogonal to the given ones, and z_e its column in the given rows, the
form of a set X is the sum over e in X of y_e (x) z_e. It is kept as terms (y, z), all y independent and all z independent. The
number of terms is the boundary of X,

    rank(X) + rank(rest) - rank(all),

and the form of a disjoint union is the sum of the forms. So a set can gain and lose parts without a look at its elements.
"""

from __future__ import annotations

from typing import Any, Protocol

from .fields import Field, columns_of, lead
from .linear import number_of_support, orthogonal_rows, reduced_echelon

Vector = Any
"""A whole number over GF(2), one bit a digit; over the other fields a row of digits."""
Term = tuple[Vector, Vector]
Form = tuple[Term, ...]


class Forms(Protocol):
    """Sums and differences of forms over one field."""

    def plus(self, left: Form, right: Form) -> Form:
        """The form of the union of two disjoint sets."""

    def minus(self, left: Form, right: Form) -> Form:
        """The form of a set without a part of it."""

    def direction(self, vector: Vector) -> Vector:
        """The one multiple of a vector whose first digit is 1; vectors with one direction are parallel."""


class BinaryForms:
    """Forms over GF(2): vectors are whole numbers, bit k the digit at place k."""

    def plus(self, left: Form, right: Form) -> Form:
        if not left or not right:
            return left or right
        kept: dict[int, Term] = {}
        for y, z in left + right:
            while y:
                place = y.bit_length()
                other = kept.get(place)
                if other is None:
                    kept[place] = (y, z)
                    break
                y ^= other[0]
                kept[place] = (other[0], other[1] ^ z)
        again: dict[int, Term] = {}
        for y, z in kept.values():
            while z:
                place = z.bit_length()
                other = again.get(place)
                if other is None:
                    again[place] = (y, z)
                    break
                z ^= other[1]
                again[place] = (other[0] ^ y, other[1])
        return tuple(again.values())

    minus = plus

    def direction(self, vector: Vector) -> Vector:
        return vector


class DigitForms:
    """Forms over any of the fields: vectors are rows of digits."""

    def __init__(self, field: Field) -> None:
        self.field = field

    def plus(self, left: Form, right: Form) -> Form:
        if not left or not right:
            return left or right
        swapped = self._independent(left + right)
        return tuple((y, z) for z, y in self._independent(tuple((z, y) for y, z in swapped)))

    def minus(self, left: Form, right: Form) -> Form:
        field = self.field
        return self.plus(left, tuple((y, field.scaled(z, field.negative(1))) for y, z in right))

    def direction(self, vector: Vector) -> Vector:
        place = lead(vector)
        return vector if place == len(vector) else self.field.scaled(vector, self.field.inverse(vector[place]))

    def _independent(self, terms: Form) -> Form:
        """The same sum, with independent first vectors."""
        kept: dict[int, Term] = {}
        for term in terms:
            self._keep(kept, term)
        return tuple(kept.values())

    def _keep(self, kept: dict[int, Term], term: Term) -> None:
        """Adds a term to those that are kept by the place of the first digit of their first vector."""
        field = self.field
        first, second = term
        place = lead(first)
        while place < len(first):
            if place not in kept:
                kept[place] = (first, second)
                return
            other_first, other_second = kept[place]
            factor = field.times(first[place], field.inverse(other_first[place]))
            first = field.plus_multiple(first, field.negative(factor), other_first)
            kept[place] = (other_first, field.plus_multiple(other_second, factor, second))
            place = lead(first)


def forms_over(field: Field) -> Forms:
    """The arithmetic of forms over a field."""
    if field.order == 2:
        return BinaryForms()
    return DigitForms(field)


def term_of(field: Field, y: bytes, z: bytes) -> Form:
    """The form of one element: no term where one of its columns is zero (a coloop or a loop)."""
    if not any(y) or not any(z):
        return ()
    if field.order == 2:
        return ((number_of_support(y), number_of_support(z)),)
    return ((y, z),)


def element_forms(field: Field, rows: list[bytes], count: int) -> list[Form]:
    """The form of each of the `count` elements of a matrix."""
    null_rows = orthogonal_rows(field, reduced_echelon(field, rows), count)
    pairs = zip(columns_of(null_rows, count), columns_of(rows, count))
    return [term_of(field, y, z) for y, z in pairs]
