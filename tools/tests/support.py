"""What the tests share: matrices of graphs and codes, random ones, and the program `mso`."""

from __future__ import annotations

import os
import shutil
import subprocess
import sys
import unittest
from collections.abc import Sequence
from pathlib import Path
from random import Random

from mso_tools.fields import field
from mso_tools.linear import reduced_echelon

TOOLS = Path(__file__).resolve().parents[1]
TOP = TOOLS.parent
FILES = TOP / "examples" / "files"

FUZZ = int(os.environ.get("MSO_TOOLS_FUZZ", "40"))
"""How many random files are put through `mso build`."""

needs_mso = unittest.skipUnless(shutil.which("mso"), "no mso on PATH")
"""For tests that ask the program."""

Edges = Sequence[tuple[int, int]]


def incidence(edges: Edges, order: int = 2) -> list[bytes]:
    """The vertex rows of a graph without loops."""
    count = 1 + max(max(edge) for edge in edges)
    rows = [bytearray(len(edges)) for _ in range(count)]
    for place, (tail, head) in enumerate(edges):
        rows[tail][place] = 1
        rows[head][place] = field(order).negative(1)
    return [bytes(row) for row in rows]


def digits(*rows: str) -> list[bytes]:
    """A matrix of written rows."""
    return [bytes(map(int, row)) for row in rows]


def grid(height: int, length: int) -> list[tuple[int, int]]:
    """The edges of a grid, column by column."""
    found = []
    for x in range(length):
        for y in range(height):
            vertex = x * height + y
            if y + 1 < height:
                found.append((vertex, vertex + 1))
            if x + 1 < length:
                found.append((vertex, vertex + height))
    return found


def complete(count: int) -> list[tuple[int, int]]:
    """The edges of a complete graph."""
    return [(one, other) for other in range(count) for one in range(other)]


def random_rows(chance: Random, order: int, count: int, height: int) -> list[bytes]:
    """A random matrix, half of whose digits are 0."""
    return [
        bytes(chance.choice((0, chance.randrange(order))) for _ in range(count)) for _ in range(height)
    ]


def rank(order: int, rows: Sequence[bytes], columns: Sequence[int]) -> int:
    """The rank of some columns."""
    return reduced_echelon(field(order), [bytes(row[column] for column in columns) for row in rows]).rank


def boundary(order: int, rows: Sequence[bytes], inside: Sequence[int], count: int) -> int:
    """The boundary of a set of columns, from ranks alone."""
    outside = [column for column in range(count) if column not in inside]
    return rank(order, rows, inside) + rank(order, rows, outside) - rank(order, rows, range(count))


def command(name: str, *words: object) -> subprocess.CompletedProcess[str]:
    """Runs a program of this folder."""
    line = [sys.executable, str(TOOLS / name), *map(str, words)]
    return subprocess.run(line, capture_output=True, text=True, check=False)
