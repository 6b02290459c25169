"""The file of a question: a network or a code, as a matroid with changes of weight."""

from __future__ import annotations

from collections.abc import Sequence
from dataclasses import dataclass, replace
from decimal import Decimal
from pathlib import Path
from typing import Optional

from .bounds import contraction_bound
from .code_files import Role, read_code
from .errors import Exit, ToolError
from .graph_files import Edge, Network, read_network
from .matroid import Matroid, read_weight

NETWORK_SUFFIXES = (".edges", ".csv", ".graphml", ".dimacs", ".col", ".gr", ".max")
"""Files that are read as networks where nothing else is said."""


@dataclass(frozen=True)
class Source:
    """What a file holds.

    `dual` says that the user's matroid is the dual of this one (the rows generate a code); `bound` is a width that no tree goes
    below (0 says nothing); `network` is there where the file is one.
    """

    matroid: Matroid
    dual: bool
    bound: int
    network: Optional[Network]


@dataclass(frozen=True)
class Change:
    """A new weight of an element; no weight where it fails."""

    text: str
    element: int
    weight: Optional[int]


def network_source(
    path: str, kind: Optional[str], weight_column: Optional[str], order: int, between: Optional[Sequence[str]]
) -> Source:
    """The cycle matroid of a network's file; where two vertices are given, with a link between them as its last element."""
    network = read_network(path, kind, weight_column)
    if between is not None:
        network = _with_link(network, between)
    return Source(network.matroid(order), False, contraction_bound(network.ends()), network)


def code_source(path: str, order: Optional[int], role: Optional[Role]) -> Source:
    """The matroid of a code's or a matrix's file."""
    code = read_code(path, order, role)
    return Source(code.matroid, code.role is Role.GENERATOR, 0, None)


def is_network_file(path: str) -> bool:
    """Whether the suffix is one of a network's."""
    return Path(path).suffix.lower() in NETWORK_SUFFIXES


def _with_link(network: Network, ends: Sequence[str]) -> Network:
    for vertex in ends:
        if vertex not in network.vertices:
            raise ToolError(Exit.REFUSED, f"{network.path}: there is no vertex `{vertex}`")
    if ends[0] == ends[1]:
        raise ToolError(Exit.REFUSED, "--between needs two different vertices")
    return replace(network, edges=[*network.edges, Edge(ends[0], ends[1], Decimal(0), "(between)", None)])


def read_change(text: str, matroid: Matroid) -> Change:
    """The change `NAME=WEIGHT` or `NAME=fails`, with the user's name and in the units of the file."""
    label, _, value = text.rpartition("=")
    if label not in matroid.labels.labels:
        raise ToolError(Exit.REFUSED, f"--then {text}: there is no element `{label}`")
    element = matroid.labels.labels.index(label)
    if value == "fails":
        return Change(text, element, None)
    weight = read_weight("--then", None, value) * matroid.weights.scale
    if weight != int(weight):
        raise ToolError(Exit.REFUSED, f"--then {text}: more decimals than the weights of the file have")
    return Change(text, element, int(weight))
