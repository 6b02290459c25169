"""Reduced echelon rows and the rows orthogonal to them, over GF(2) to GF(5)."""

from __future__ import annotations

from dataclasses import dataclass

from .fields import Field, lead, support


@dataclass(frozen=True)
class Echelon:
    """Reduced echelon rows of a matrix: row k has its first digit, a 1, at `pivots[k]`, and pivots ascend."""

    pivots: list[int]
    rows: list[bytes]

    @property
    def rank(self) -> int:
        """The rank of the matrix."""
        return len(self.pivots)


def number_of_support(row: bytes) -> int:
    """The row as a number whose bit k is 1 where the digit at place k is not 0; over GF(2) it is the row."""
    return int(row.translate(_SUPPORT_TEXT)[::-1] or b"0", 2)


def places_of(number: int) -> list[int]:
    """The places of the bits of a number that are 1, ascending."""
    places = []
    while number:
        last = number & -number
        places.append(last.bit_length() - 1)
        number ^= last
    return places


def _digits(number: int, count: int) -> bytes:
    return format(number, f"0{count}b")[::-1].encode().translate(_DIGIT_VALUE) if count else b""


_SUPPORT_TEXT = b"0" + b"1" * 255
_DIGIT_VALUE = bytes((digit & 1) for digit in range(256))


def reduced_echelon(field: Field, rows: list[bytes]) -> Echelon:
    """The reduced echelon rows that span what `rows` span. Sparse rows go first, which keeps the others sparse."""
    rows = sorted(rows, key=lambda row: len(row) - row.count(0))
    if field.order == 2:
        return _binary_echelon(rows)
    kept: dict[int, bytes] = {}
    for row in rows:
        _keep(field, kept, row)
    pivots = sorted(kept)
    for pivot in reversed(pivots):
        kept[pivot] = _cleared(field, kept, pivot, pivots)
    return Echelon(pivots, [kept[pivot] for pivot in pivots])


def _keep(field: Field, kept: dict[int, bytes], row: bytes) -> None:
    """Adds what is new in `row` to the rows kept by the place of their first digit, which is 1."""
    place = lead(row)
    while place < len(row):
        if place not in kept:
            kept[place] = field.scaled(row, field.inverse(row[place]))
            return
        row = field.plus_multiple(row, field.negative(row[place]), kept[place])
        place = lead(row)


def _cleared(field: Field, kept: dict[int, bytes], pivot: int, pivots: list[int]) -> bytes:
    """The row of `pivot` without digits at the other pivots; those to its right are cleared already."""
    row = kept[pivot]
    for other in pivots:
        if other > pivot and row[other]:
            row = field.plus_multiple(row, field.negative(row[other]), kept[other])
    return row


def _binary_echelon(rows: list[bytes]) -> Echelon:
    """As `reduced_echelon` over GF(2), with rows as whole numbers."""
    kept: dict[int, int] = {}
    for row in rows:
        number = number_of_support(row)
        while number:
            place = (number & -number).bit_length() - 1
            if place not in kept:
                kept[place] = number
                break
            number ^= kept[place]
    pivots = sorted(kept)
    mask = sum(1 << pivot for pivot in pivots)
    for pivot in reversed(pivots):
        number = kept[pivot]
        for place in places_of(number & mask & ~(1 << pivot)):
            number ^= kept[place]
        kept[pivot] = number
    count = len(rows[0]) if rows else 0
    return Echelon(pivots, [_digits(kept[pivot], count) for pivot in pivots])


def orthogonal_rows(field: Field, echelon: Echelon, count: int) -> list[bytes]:
    """A basis of the vectors of `count` digits whose product with each row is 0: one for each column that is no pivot."""
    pivots = set(echelon.pivots)
    free = [place for place in range(count) if place not in pivots]
    basis = {place: bytearray(count) for place in free}
    for place in free:
        basis[place][place] = 1
    for pivot, row in zip(echelon.pivots, echelon.rows):
        for place in support(row):
            if place != pivot:
                basis[place][pivot] = field.negative(row[place])
    return [bytes(basis[place]) for place in free]
