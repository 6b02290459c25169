"""Networks from files: an edge list, CSV with a header, DIMACS, GraphML."""

from __future__ import annotations

import csv
from collections.abc import Callable, Iterable, Sequence
from dataclasses import dataclass
from decimal import Decimal
from pathlib import Path
from typing import Optional

from .errors import missing, refused
from .fields import field
from .matroid import Labels, Matroid, check_count, read_weight, rows_that_fit, whole_weights

_TAIL_COLUMNS = ("source", "from", "tail", "u", "a", "node1", "start")
_HEAD_COLUMNS = ("target", "to", "head", "v", "b", "node2", "end")
_WEIGHT_COLUMNS = ("weight", "cost", "price", "capacity", "length", "distance", "w")
_LABEL_COLUMNS = ("name", "label", "id", "link", "edge")


@dataclass(frozen=True)
class Edge:
    """One link between two vertices, and the line of the file that has it."""

    tail: str
    head: str
    weight: Decimal
    label: Optional[str]
    line: Optional[int]


@dataclass(frozen=True)
class Network:
    """Vertices in order of first sight, and the links between them."""

    path: str
    edges: list[Edge]

    @property
    def vertices(self) -> list[str]:
        """The names of the vertices."""
        return list(dict.fromkeys(vertex for edge in self.edges for vertex in (edge.tail, edge.head)))

    def ends(self) -> list[tuple[int, int]]:
        """For each link the numbers of its two vertices."""
        number = {vertex: place for place, vertex in enumerate(self.vertices)}
        return [(number[edge.tail], number[edge.head]) for edge in self.edges]

    def labels(self) -> list[str]:
        """The label of each link: its own, else its ends; a second link of one label gets `#2`."""
        seen: dict[str, int] = {}
        found = []
        for edge in self.edges:
            label = edge.label or f"{edge.tail}-{edge.head}"
            seen[label] = seen.get(label, 0) + 1
            found.append(label if seen[label] == 1 else f"{label}#{seen[label]}")
        return found

    def matroid(self, order: int) -> Matroid:
        """The cycle matroid: a column for each link, 1 at its one end and -1 at the other, none for a loop."""
        check_count(self.path, len(self.edges))
        minus = field(order).negative(1)
        rows = [bytearray(len(self.edges)) for _ in self.vertices]
        for place, (tail, head) in enumerate(self.ends()):
            if tail != head:
                rows[tail][place] = 1
                rows[head][place] = minus
        weights = whole_weights(self.path, [(edge.weight, edge.line) for edge in self.edges])
        fitting = rows_that_fit(order, [bytes(row) for row in rows])
        return Matroid(order, fitting, Labels.of(self.labels(), "e"), weights)


def read_network(path: str, kind: Optional[str], weight_column: Optional[str]) -> Network:
    """The network of a file; without a kind it is told from the suffix."""
    kind = kind or _kind_of(path)
    edges = _READERS[kind](path, weight_column)
    return Network(path, edges)


def _kind_of(path: str) -> str:
    suffix = Path(path).suffix.lower()
    if suffix in (".csv", ".graphml"):
        return suffix[1:]
    if suffix in (".dimacs", ".col", ".gr", ".max"):
        return "dimacs"
    return "edges"


def read_lines(path: str) -> list[tuple[int, str]]:
    """The lines of a text file with their numbers, without those that are empty."""
    try:
        text = Path(path).read_text(encoding="utf-8-sig")
    except (OSError, UnicodeDecodeError) as fault:
        raise refused(path, None, f"cannot be read: {fault}") from None
    numbered = enumerate(text.splitlines(), start=1)
    return [(number, line.strip()) for number, line in numbered if line.strip()]


def _edge(path: str, line: Optional[int], words: Sequence[str]) -> Edge:
    """The link of `u v [weight]`."""
    if len(words) not in (2, 3):
        raise refused(path, line, f"{len(words)} words: a link is `u v` or `u v weight`")
    weight = read_weight(path, line, words[2]) if len(words) == 3 else Decimal(1)
    return Edge(words[0], words[1], weight, None, line)


def _read_edge_list(path: str, _: Optional[str]) -> list[Edge]:
    return [_edge(path, number, line.split()) for number, line in read_lines(path) if line[0] not in "#%"]


def _read_dimacs(path: str, _: Optional[str]) -> list[Edge]:
    """The links of lines `e u v`, `a u v weight` or, where the kind is `tw`, `u v`."""
    lines = read_lines(path)
    announced = next(((number, line.split()) for number, line in lines if line.split()[0] == "p"), None)
    if announced is None:
        raise refused(path, None, "there is no line `p`: is it DIMACS?")
    number, words = announced
    if len(words) != 4 or not words[3].isdecimal():
        raise refused(path, number, "the line is `p KIND VERTICES LINKS`")
    read = [_dimacs_edge(path, place, line.split(), words[1]) for place, line in lines]
    edges = [edge for edge in read if edge is not None]
    if len(edges) != int(words[3]):
        raise refused(path, number, f"{words[3]} links are announced, {len(edges)} follow")
    return _without_arcs_back(edges) if any(line.startswith("a") for _, line in lines) else edges


def _dimacs_edge(path: str, number: int, words: list[str], kind: str) -> Optional[Edge]:
    """The link of a line; None for a line of another kind."""
    if words[0] in ("e", "a"):
        return _edge(path, number, words[1:])
    if kind == "tw" and words[0].isdecimal():
        return _edge(path, number, words)
    if words[0] not in ("c", "p", "n", "d", "v", "x"):
        raise refused(path, number, f"`{words[0]}` begins no line of DIMACS: c, p, e, a or n is expected")
    return None


def _without_arcs_back(edges: list[Edge]) -> list[Edge]:
    """The links, where an arc and its arc back of the same weight are one link."""
    waiting: dict[tuple[str, str, Decimal], int] = {}
    found = []
    for edge in edges:
        back = (edge.head, edge.tail, edge.weight)
        if waiting.get(back, 0):
            waiting[back] -= 1
            continue
        there = (edge.tail, edge.head, edge.weight)
        waiting[there] = waiting.get(there, 0) + 1
        found.append(edge)
    return found


def _read_csv(path: str, weight_column: Optional[str]) -> list[Edge]:
    lines = read_lines(path)
    if not lines:
        raise refused(path, None, "there is no header line")
    records = list(csv.reader(line for _, line in lines))
    header = [word.strip().lower() for word in records[0]]
    columns = _columns(path, lines[0][0], header, weight_column)
    return [_csv_edge(path, number, record, columns) for (number, _), record in zip(lines[1:], records[1:])]


@dataclass(frozen=True)
class _Columns:
    """The places of the columns of a CSV file."""

    count: int
    tail: int
    head: int
    weight: Optional[int]
    label: Optional[int]


def _columns(path: str, line: int, header: list[str], weight_column: Optional[str]) -> _Columns:
    if weight_column is not None and weight_column.lower() not in header:
        raise refused(path, line, f"there is no column `{weight_column}`; the header has {', '.join(header)}")
    return _Columns(
        count=len(header),
        tail=_end_place(path, line, header, "tail", _TAIL_COLUMNS),
        head=_end_place(path, line, header, "head", _HEAD_COLUMNS),
        weight=_place(header, (weight_column.lower(),) if weight_column else _WEIGHT_COLUMNS),
        label=_place(header, _LABEL_COLUMNS),
    )


def _end_place(path: str, line: int, header: list[str], what: str, names: Sequence[str]) -> int:
    place = _place(header, names)
    if place is None:
        raise refused(path, line, f"the header has no column for the {what} of a link: one of {', '.join(names)}")
    return place


def _place(header: list[str], names: Iterable[str]) -> Optional[int]:
    return next((header.index(name) for name in names if name in header), None)


def _csv_edge(path: str, line: int, record: list[str], columns: _Columns) -> Edge:
    if len(record) != columns.count:
        raise refused(path, line, f"{len(record)} fields, but the header has {columns.count}")
    cells = [cell.strip() for cell in record]
    weight = Decimal(1) if columns.weight is None else read_weight(path, line, cells[columns.weight])
    label = None if columns.label is None else cells[columns.label] or None
    if not cells[columns.tail] or not cells[columns.head]:
        raise refused(path, line, "an end of the link is empty")
    return Edge(cells[columns.tail], cells[columns.head], weight, label, line)


def _read_graphml(path: str, weight_column: Optional[str]) -> list[Edge]:
    try:
        import networkx
    except ImportError:
        raise missing("networkx, which reads GraphML,", "Install it by: apt-get install python3-networkx") from None
    try:
        graph = networkx.read_graphml(path)
    except Exception as fault:
        line = getattr(fault, "position", (None,))[0]
        raise refused(path, line, f"is no GraphML that networkx reads: {fault}") from None
    key = weight_column or "weight"
    labels = networkx.get_node_attributes(graph, "label")
    edges = []
    for tail, head, data in graph.edges(data=True):
        if weight_column is not None and weight_column not in data:
            raise refused(path, None, f"the link {tail}-{head} has no `{weight_column}`")
        weight = read_weight(path, None, str(data.get(key, 1)))
        edges.append(Edge(str(labels.get(tail, tail)), str(labels.get(head, head)), weight, data.get("label"), None))
    return edges


_READERS: dict[str, Callable[[str, Optional[str]], list[Edge]]] = {
    "edges": _read_edge_list,
    "csv": _read_csv,
    "dimacs": _read_dimacs,
    "graphml": _read_graphml,
}

KINDS = tuple(_READERS)
"""The kinds of files that are read as networks."""
