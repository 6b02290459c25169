"""Digits of GF(2), GF(3), GF(4) and GF(5), and rows of them as bytes (one digit a byte)."""

from __future__ import annotations

import re
from dataclasses import dataclass
from functools import lru_cache

ORDERS = (2, 3, 4, 5)
_GF4_PRODUCTS = ((0, 0, 0, 0), (0, 1, 2, 3), (0, 2, 3, 1), (0, 3, 1, 2))


@dataclass(frozen=True)
class Field:
    """The field with `order` elements; `scaled_by[c]` is a table for `bytes.translate` that multiplies each digit by c."""

    order: int
    scaled_by: tuple[bytes, ...]
    reduced: bytes

    def times(self, left: int, right: int) -> int:
        """The product of two digits."""
        return self.scaled_by[left][right]

    def inverse(self, digit: int) -> int:
        """The digit whose product with `digit` is 1; `digit` is not 0."""
        return next(other for other in range(1, self.order) if self.times(digit, other) == 1)

    def negative(self, digit: int) -> int:
        """The digit whose sum with `digit` is 0."""
        return digit if self.order in (2, 4) else -digit % self.order

    def scaled(self, row: bytes, factor: int) -> bytes:
        """Each digit of `row` times `factor`."""
        return row.translate(self.scaled_by[factor])

    def plus(self, row: bytes, other: bytes) -> bytes:
        """The sum of two rows of one length, digit by digit: lanes of one byte never carry into each other."""
        left = int.from_bytes(row, "little")
        right = int.from_bytes(other, "little")
        if self.order in (2, 4):
            return (left ^ right).to_bytes(len(row), "little")
        return (left + right).to_bytes(len(row), "little").translate(self.reduced)

    def plus_multiple(self, row: bytes, factor: int, other: bytes) -> bytes:
        """`row` plus `factor` times `other`."""
        return self.plus(row, self.scaled(other, factor))


def _product(order: int, left: int, right: int) -> int:
    if order == 4:
        return _GF4_PRODUCTS[left % 4][right % 4]
    return left * right % order


@lru_cache(maxsize=None)
def field(order: int) -> Field:
    """The field with `order` elements; ValueError where `order` is not 2, 3, 4 or 5."""
    if order not in ORDERS:
        raise ValueError(f"there is no field of {order} elements here: take 2, 3, 4 or 5")
    scaled_by = tuple(bytes(_product(order, factor, digit) for digit in range(256)) for factor in range(order))
    return Field(order, scaled_by, bytes(digit % order for digit in range(256)))


def lead(row: bytes) -> int:
    """The place of the first digit that is not 0; the length of the row where there is none."""
    return len(row) - len(row.lstrip(b"\0"))


def support(row: bytes) -> list[int]:
    """The places of the digits that are not 0."""
    return [digit.start() for digit in _NOT_ZERO.finditer(row)]


_NOT_ZERO = re.compile(rb"[^\0]", re.DOTALL)


def columns_of(rows: list[bytes], count: int) -> list[bytes]:
    """The `count` columns of a matrix, each read from the top."""
    digits = b"".join(rows)
    return [digits[place::count] for place in range(count)]


def text_of(row: bytes) -> str:
    """The digits of a row as they are written in a job; `-` where there is none."""
    return "".join(map(str, row)) or "-"
