"""Codes and matrices from files: rows of digits, alist, or a convolutional code by its generators.

Rows of digits are lines such as `1 0 1 1` or `1011`; lines that begin with `#` are passed over. Before them may stand, once each:

    field 3                  the field (2 where no line says so)
    names a b c d            the names of the columns
    weights 1 1 2.5 1        their weights (1 each where no line says so)

The alist form is MacKay's, for binary matrices. A convolutional code of rate 1/n is two lines, its generators in octal and the
number of information bits; it is terminated, so (bits + memory) blocks of n digits are sent:

    generators 5 7
    length 20
"""

from __future__ import annotations

from collections.abc import Sequence
from dataclasses import dataclass, field as dataclass_field
from decimal import Decimal
from enum import Enum
from typing import Optional

from .errors import refused
from .fields import ORDERS, field, support
from .graph_files import read_lines
from .linear import orthogonal_rows, reduced_echelon
from .matroid import Labels, Matroid, check_count, read_weight, rows_that_fit, whole_weights

_Line = tuple[int, str]


class Role(Enum):
    """What the rows of a code's matrix are."""

    PARITY_CHECK = "parity-check"
    """The code has the vectors that are orthogonal to all rows."""
    GENERATOR = "generator"
    """The code has the combinations of the rows."""


@dataclass(frozen=True)
class Code:
    """A matrix whose columns are the positions of a code, and what its rows are."""

    matroid: Matroid
    role: Role

    def by_parity_checks(self) -> Matroid:
        """The matroid whose circuits are the smallest supports of codewords."""
        given = self.matroid
        if self.role is Role.PARITY_CHECK:
            return given
        the_field = field(given.order)
        rows = orthogonal_rows(the_field, reduced_echelon(the_field, given.rows), given.count)
        return Matroid(given.order, rows, given.labels, given.weights)


@dataclass
class _Preamble:
    """The lines before the digits."""

    order: Optional[int] = None
    names: Optional[list[str]] = None
    weights: Optional[list[tuple[Decimal, Optional[int]]]] = None
    lines: dict[str, int] = dataclass_field(default_factory=dict)


def read_code(path: str, order: Optional[int], role: Optional[Role]) -> Code:
    """The code of a file. `order` and `role` come before what the file says; rows are parity checks where nothing is said."""
    lines = [(number, line) for number, line in read_lines(path) if not line.startswith("#")]
    if not lines:
        raise refused(path, None, "there is no row in it")
    first = lines[0][1].split()
    if first[0] == "generators":
        return Code(_convolutional(path, lines), Role.GENERATOR)
    if _is_alist(lines):
        return Code(_alist(path, lines), role or Role.PARITY_CHECK)
    return Code(_digits(path, lines, order), role or Role.PARITY_CHECK)


def _matroid(path: str, order: int, rows: list[bytes], preamble: _Preamble) -> Matroid:
    """The matroid of rows of one length, with the names and weights that the file gives."""
    count = len(rows[0])
    check_count(path, count)
    if preamble.names is not None and len(preamble.names) != count:
        raise refused(path, preamble.lines["names"], f"{len(preamble.names)} names for {count} columns")
    if preamble.weights is not None and len(preamble.weights) != count:
        raise refused(path, preamble.lines["weights"], f"{len(preamble.weights)} weights for {count} columns")
    labels = preamble.names or [str(position) for position in range(1, count + 1)]
    weights = preamble.weights or [(Decimal(1), None)] * count
    return Matroid(order, rows_that_fit(order, rows), Labels.of(labels, "b"), whole_weights(path, weights))


# ---------------------------------------------------------------- rows of digits


def _digits(path: str, lines: Sequence[_Line], order: Optional[int]) -> Matroid:
    preamble = _Preamble()
    rest = list(lines)
    while rest and rest[0][1].split()[0] in _WORDS:
        number, line = rest.pop(0)
        _take_word(path, number, line.split(), preamble)
    if order is not None and preamble.order not in (None, order):
        raise refused(path, preamble.lines["field"], f"the file says GF({preamble.order}), the command GF({order})")
    if not rest:
        raise refused(path, None, "there is no row of digits in it")
    order = order or preamble.order or 2
    rows = [_row(path, number, line, order) for number, line in rest]
    for (number, _), row in zip(rest, rows):
        if len(row) != len(rows[0]):
            raise refused(path, number, f"{len(row)} digits, but the first row has {len(rows[0])}")
    return _matroid(path, order, rows, preamble)


_WORDS = ("field", "names", "weights")


def _take_word(path: str, number: int, words: list[str], preamble: _Preamble) -> None:
    """Takes a line that begins with `field`, `names` or `weights`."""
    if words[0] in preamble.lines:
        raise refused(path, number, f"a second line `{words[0]}`; the first is line {preamble.lines[words[0]]}")
    preamble.lines[words[0]] = number
    if words[0] == "names":
        preamble.names = _different(path, number, words[1:])
    elif words[0] == "weights":
        preamble.weights = [(read_weight(path, number, word), number) for word in words[1:]]
    elif len(words) == 2 and words[1] in map(str, ORDERS):
        preamble.order = int(words[1])
    else:
        raise refused(path, number, "the line is `field 2`, `field 3`, `field 4` or `field 5`")


def _different(path: str, number: int, names: list[str]) -> list[str]:
    for place, name in enumerate(names):
        if name in names[:place]:
            raise refused(path, number, f"the name `{name}` stands twice")
    return names


def _row(path: str, number: int, line: str, order: int) -> bytes:
    digits = "".join(line.replace(",", " ").split())
    for digit in digits:
        if digit not in "01234"[:order]:
            raise refused(path, number, f"`{digit}` is no digit of GF({order}), which has 0 to {order - 1}")
    return bytes(int(digit) for digit in digits)


# ---------------------------------------------------------------- alist


def _is_alist(lines: Sequence[_Line]) -> bool:
    """Whether the first lines are the sizes of an alist: two numbers twice, and then as many numbers as the first says."""
    heads = [line.split() for _, line in lines[:3]]
    if len(heads) < 3 or not all(word.isdecimal() for head in heads for word in head):
        return False
    return len(heads[0]) == 2 and len(heads[1]) == 2 and len(heads[2]) == int(heads[0][0]) and any(
        int(word) > 1 for word in heads[0]
    )


def _alist(path: str, lines: Sequence[_Line]) -> Matroid:
    columns, rows = (int(word) for word in lines[0][1].split())
    if len(lines) != 4 + columns + rows:
        raise refused(path, lines[-1][0], f"{len(lines)} lines, but {columns} columns and {rows} rows need {4 + columns + rows}")
    column_lists = [_list(path, line, rows) for line in lines[4 : 4 + columns]]
    _check_weights(path, lines[2], column_lists, "column")
    row_lists = [_list(path, line, columns) for line in lines[4 + columns :]]
    _check_weights(path, lines[3], row_lists, "row")
    matrix = [bytearray(columns) for _ in range(rows)]
    for column, places in enumerate(column_lists):
        for row in places:
            matrix[row][column] = 1
    for (number, _), digits, places in zip(lines[4 + columns :], matrix, row_lists):
        if support(bytes(digits)) != sorted(places):
            raise refused(path, number, "the list of the row is not what the lists of the columns say")
    return _matroid(path, 2, [bytes(row) for row in matrix], _Preamble())


def _list(path: str, line: _Line, limit: int) -> list[int]:
    """The places, from 0, of one list; zeros at its end fill it up."""
    number, text = line
    places = []
    for word in text.split():
        if not word.isdecimal() or int(word) > limit:
            raise refused(path, number, f"`{word}` is no place from 1 to {limit}")
        if int(word):
            places.append(int(word) - 1)
    if len(set(places)) != len(places):
        raise refused(path, number, "a place stands twice")
    return places


def _check_weights(path: str, line: _Line, lists: Sequence[list[int]], what: str) -> None:
    number, text = line
    told = text.split()
    if len(told) != len(lists):
        raise refused(path, number, f"{len(told)} weights for {len(lists)} {what}s")
    for place, (word, listed) in enumerate(zip(told, lists), start=1):
        if word != str(len(listed)):
            raise refused(path, number, f"{what} {place} has weight {word} here, but {len(listed)} places below")


# ---------------------------------------------------------------- convolutional codes


def _convolutional(path: str, lines: Sequence[_Line]) -> Matroid:
    number, line = lines[0]
    generators = [_octal(path, number, word) for word in line.split()[1:]]
    if len(generators) < 2 or not any(generators):
        raise refused(path, number, "the line is `generators` and two octal numbers or more, as in `generators 5 7`")
    bits = _length(path, lines)
    memory = max(generators).bit_length() - 1
    taps = [[generator >> (memory - delay) & 1 for delay in range(memory + 1)] for generator in generators]
    block = bytes(tap[delay] for delay in range(memory + 1) for tap in taps)
    count = (bits + memory) * len(generators)
    check_count(path, count)
    rows = [bytes(start * len(generators)) + block for start in range(bits)]
    rows = [row + bytes(count - len(row)) for row in rows]
    return _matroid(path, 2, rows, _Preamble())


def _octal(path: str, number: int, word: str) -> int:
    try:
        return int(word, 8)
    except ValueError:
        raise refused(path, number, f"`{word}` is no octal number") from None


def _length(path: str, lines: Sequence[_Line]) -> int:
    """The number of information bits, from the second line."""
    words = lines[1][1].split() if len(lines) == 2 else []
    if len(words) != 2 or words[0] != "length" or not words[1].isdecimal() or int(words[1]) == 0:
        number = lines[1][0] if len(lines) > 1 else lines[0][0]
        raise refused(path, number, "after `generators ..` one line `length BITS` is expected, and nothing else")
    return int(words[1])
