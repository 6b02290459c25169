"""Headers of jobs, read back for pictures: operators and the tree. Only texts that `mso` takes are read; it refuses the rest."""

from __future__ import annotations

from dataclasses import dataclass
from typing import Optional, Union

from .errors import refused
from .fields import Field, field
from .graph_files import read_lines
from .linear import reduced_echelon

Space = Optional[list[bytes]]
"""A reduced echelon basis of the boundary space of an independent set; None where the set is dependent."""


@dataclass(frozen=True)
class Operator:
    """An operator: the boundaries of its children and its own, as matrices of rows of one length."""

    name: str
    first: list[bytes]
    second: list[bytes]
    third: list[bytes]

    @property
    def width(self) -> int:
        """The number of digits of each row; 0 where there is no row."""
        return len((self.first + self.second + self.third or [b""])[0])


@dataclass(frozen=True)
class Leaf:
    """A leaf: an element with its vector and weight, or no element and a boundary alone."""

    name: str
    vector: Optional[bytes]
    weight: int
    boundary: int


@dataclass(frozen=True)
class Join:
    """A join of two nodes."""

    operator: Operator
    left: "Node"
    right: "Node"

    @property
    def boundary(self) -> int:
        """The number of rows that the join hands on."""
        return len(self.operator.third)


Node = Union[Leaf, Join]


@dataclass(frozen=True)
class Job:
    """The field and the tree of a job, and its nodes in the order of the text, children first."""

    field: Field
    nodes: list[Node]

    @property
    def root(self) -> Node:
        """The root."""
        return self.nodes[-1]

    def place_of(self, name: str, steps: int) -> Optional[int]:
        """The place in `nodes` of the node that is so many joins above a leaf; None where there is none."""
        above = self.parents()
        at = next((place for place, node in enumerate(self.nodes) if isinstance(node, Leaf) and node.name == name), None)
        for _ in range(steps):
            at = None if at is None else above[at]
        return at

    def children(self) -> list[tuple[int, ...]]:
        """For each node the places of its children."""
        stack: list[int] = []
        found: list[tuple[int, ...]] = []
        for place, node in enumerate(self.nodes):
            if isinstance(node, Leaf):
                found.append(())
            else:
                right, left = stack.pop(), stack.pop()
                found.append((left, right))
            stack.append(place)
        return found

    def parents(self) -> list[Optional[int]]:
        """For each node the place of the join above it."""
        above: list[Optional[int]] = [None] * len(self.nodes)
        for place, children in enumerate(self.children()):
            for child in children:
                above[child] = place
        return above

    def columns(self) -> list[dict[str, bytes]]:
        """For each node the boundary columns of the elements below it, by name."""
        found: list[dict[str, bytes]] = []
        for node, children in zip(self.nodes, self.children()):
            if isinstance(node, Leaf):
                found.append({} if node.vector is None else {node.name: node.vector})
            else:
                left, right = (found[child] for child in children)
                handed = {name: self._handed_on(node.operator, node.operator.first, column) for name, column in left.items()}
                handed |= {name: self._handed_on(node.operator, node.operator.second, column) for name, column in right.items()}
                found.append(handed)
        return found

    def _handed_on(self, operator: Operator, matrix: list[bytes], column: bytes) -> bytes:
        """The digits b of a child's column: its image is b times the third matrix, but for digits at that one's free columns."""
        image = combined(self.field, column, matrix, operator.width)
        tagged = [row + unit(place, len(operator.third)) for place, row in enumerate(operator.third)]
        echelon = reduced_echelon(self.field, tagged)
        width = len(image)
        result = bytes(len(operator.third))
        for pivot, row in zip(echelon.pivots, echelon.rows):
            result = self.field.plus_multiple(result, image[pivot], row[width:])
        return result

    def spaces(self, chosen: set[str]) -> list[Space]:
        """For each node the boundary space of the chosen elements below it."""
        found: list[Space] = []
        for node, children in zip(self.nodes, self.children()):
            if isinstance(node, Leaf):
                found.append(_leaf_space(self.field, node, node.name in chosen))
            else:
                found.append(_joined_space(self.field, node.operator, found[children[0]], found[children[1]]))
        return found


def unit(place: int, count: int) -> bytes:
    """The unit vector with its 1 at a place."""
    return bytes(int(other == place) for other in range(count))


def combined(the_field: Field, digits: bytes, matrix: list[bytes], count: int) -> bytes:
    """The combination of the rows of a matrix, of `count` digits each, with these digits."""
    total = bytes(count)
    for digit, row in zip(digits, matrix):
        total = the_field.plus_multiple(total, digit, row)
    return total


def _leaf_space(the_field: Field, leaf: Leaf, taken: bool) -> Space:
    if not taken or leaf.vector is None:
        return []
    return reduced_echelon(the_field, [leaf.vector]).rows if any(leaf.vector) else None


def _joined_space(the_field: Field, operator: Operator, left: Space, right: Space) -> Space:
    """Dependent where a side is, or where the two images meet; else all b that the third matrix takes into their sum."""
    if left is None or right is None:
        return None
    width = operator.width
    images = [combined(the_field, row, operator.first, width) for row in left]
    images += [combined(the_field, row, operator.second, width) for row in right]
    echelon = reduced_echelon(the_field, images)
    if echelon.rank < len(images):
        return None
    count = len(operator.third)
    tagged = [row + bytes(count) for row in echelon.rows]
    tagged += [row + unit(place, count) for place, row in enumerate(operator.third)]
    kernel = reduced_echelon(the_field, tagged)
    return [row[width:] for pivot, row in zip(kernel.pivots, kernel.rows) if pivot >= width]


# ---------------------------------------------------------------- reading


def read_job(path: str) -> Job:
    """The operators and the tree of a job's header, of either format."""
    operators: dict[str, Operator] = {}
    nodes: list[Node] = []
    stack: list[Node] = []
    order = 2
    for number, line in read_lines(path):
        words = line.split()
        try:
            if words[0] == "field":
                order = int(words[1])
            elif words[0] == "op":
                operators[words[1]] = _operator(words)
            elif words[0] in ("elem", "void", "join"):
                node = _node(words, operators, stack)
                stack.append(node)
                nodes.append(node)
            elif words[0] == "end":
                break
        except (IndexError, KeyError, ValueError):
            raise refused(path, number, f"`{line[:40]}` is no line of a job that mso takes") from None
    if len(stack) != 1:
        raise refused(path, None, "there is no tree in it: it is not the header of a job (mso build writes one)")
    return Job(field(order), nodes)


def _rows(text: str) -> list[bytes]:
    return [] if text == "." else [_vector(row) for row in text.split("/")]


def _vector(text: str) -> bytes:
    return b"" if text == "-" else bytes(int(digit) for digit in text)


def _operator(words: list[str]) -> Operator:
    third, free = int(words[4]), int(words[5])
    last = _rows(words[8]) if len(words) > 8 else [unit(place, third + free) for place in range(third)]
    return Operator(words[1], _rows(words[6]), _rows(words[7]), last)


def _node(words: list[str], operators: dict[str, Operator], stack: list[Node]) -> Node:
    if words[0] == "join":
        right, left = stack.pop(), stack.pop()
        return Join(operators[words[1]], left, right)
    if words[0] == "void":
        return Leaf(words[1], None, 0, int(words[2]))
    vector = _vector(words[2])
    return Leaf(words[1], vector, int(words[3]), len(vector))
