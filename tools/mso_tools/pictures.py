"""Pictures as Graphviz texts: the tree of a job, and a network with marked links."""

from __future__ import annotations

import shutil
import subprocess
from collections.abc import Mapping, Sequence
from decimal import Decimal
from pathlib import Path
from typing import Optional

from .command_line import write_file
from .errors import Exit, ToolError, missing
from .fields import text_of
from .graph_files import Network
from .job_files import Job, Leaf, Node, Space

_MARKED = "#d1495b"
_PLAIN = "#30475e"
_PALE = "#f3d9dc"
_FONT = 'fontname="DejaVu Sans"'


def quoted(text: str) -> str:
    """A text as a Graphviz string; a newline in it begins a new line of a label."""
    return '"' + text.replace("\\", "\\\\").replace('"', '\\"').replace("\n", "\\n") + '"'


def matrix_text(rows: Sequence[bytes]) -> str:
    """A matrix as it is written in a job."""
    return "/".join(text_of(row) for row in rows) or "."


def space_text(space: Space) -> str:
    """A boundary space by the rows of its basis."""
    if space is None:
        return "dependent"
    return " / ".join(text_of(row) for row in space) if space else "zero"


# ---------------------------------------------------------------- the tree of a job


def tree_picture(job: Job, label_of: Mapping[str, str], chosen: set[str], interest: Optional[int]) -> str:
    """The tree with its boundaries, operators and elements.

    Where elements are chosen they are marked, and each join shows the boundary space of those below it. The node at the place
    `interest` shows the columns of the elements below it.
    """
    spaces = job.spaces(chosen) if chosen else None
    lines = [
        "graph tree {",
        f'  node [{_FONT}, fontsize=11, color="{_PLAIN}", margin="0.08,0.05"];',
        f'  edge [{_FONT}, fontsize=10, color="{_PLAIN}"];',
        "  ranksep=0.35; nodesep=0.18;",
    ]
    for place, node in enumerate(job.nodes):
        space = None if spaces is None else space_text(spaces[place])
        lines.append(f"  n{place} [{_node_style(node, label_of, chosen, space, place == interest)}];")
    for place, children in enumerate(job.children()):
        lines += [f"  n{place} -- n{child} [label={quoted(f' {job.nodes[child].boundary}')}];" for child in children]
    if interest is not None:
        lines += _columns_box(job, label_of, interest, spaces)
    return "\n".join(lines) + "\n}\n"


def _node_style(node: Node, label_of: Mapping[str, str], chosen: set[str], space: Optional[str], interesting: bool) -> str:
    """The label and the look of a node."""
    look = ["penwidth=3"] if interesting else []
    if isinstance(node, Leaf):
        words = [label_of.get(node.name, node.name)]
        words += ["void"] if node.vector is None else [f"{text_of(node.vector)}  weight {node.weight}"]
        look.append("shape=box")
        if node.name in chosen:
            look += ["style=filled", f'fillcolor="{_PALE}"', f'color="{_MARKED}"']
    else:
        words = [node.operator.name] + ([space] if space is not None else [])
        look.append("shape=ellipse")
    return ", ".join([f"label={quoted(chr(10).join(words))}", *look])


def _columns_box(job: Job, label_of: Mapping[str, str], interest: int, spaces: Optional[list[Space]]) -> list[str]:
    """A note beside the node of interest: its operator, the boundary columns of the elements below, the space of the chosen."""
    columns = job.columns()[interest]
    node = job.nodes[interest]
    words = [f"boundary {node.boundary}"]
    if not isinstance(node, Leaf):
        matrices = (node.operator.first, node.operator.second, node.operator.third)
        words += [f"G{number} {matrix_text(matrix)}" for number, matrix in enumerate(matrices, start=1)]
    words += [f"{label_of.get(name, name)}: {text_of(column)}" for name, column in columns.items()]
    if spaces is not None:
        words.append(f"chosen: {space_text(spaces[interest])}")
    return [
        f'  note [shape=note, style=filled, fillcolor="#fff8e1", label={quoted(chr(10).join(words))}];',
        f"  {{ rank=same; n{interest}; note; }}",
        f"  n{interest} -- note [style=dashed];",
    ]


# ---------------------------------------------------------------- a network


def network_picture(network: Network, marked: set[str], turned: Optional[int]) -> str:
    """The network, with its weights where one is not 1; marked links are thick and red.

    Where `turned` is given the first link has this angle, in degrees.
    """
    turn = "" if turned is None else f" normalize={turned};"
    weighted = any(edge.weight != 1 for edge in network.edges)
    lines = [
        "graph network {",
        f"  layout=neato; overlap=vpsc; splines=true; start=3;{turn}",
        f'  node [{_FONT}, fontsize=12, shape=box, style="rounded,filled", fillcolor="#eef2f6", color="{_PLAIN}", margin="0.08,0.04"];',
        f'  edge [{_FONT}, fontsize=11, color="{_PLAIN}", len=1.8];',
    ]
    lines += [f"  {quoted(vertex)};" for vertex in network.vertices]
    for edge, label in zip(network.edges, network.labels()):
        look = f', color="{_MARKED}", fontcolor="{_MARKED}", penwidth=3' if label in marked else ""
        words = f"label={_on_white(edge.weight)}" if weighted else "label=\"\""
        lines.append(f"  {quoted(edge.tail)} -- {quoted(edge.head)} [{words}{look}];")
    return "\n".join(lines) + "\n}\n"


def _on_white(weight: Decimal) -> str:
    """A weight as a label that hides the line behind it."""
    cell = f'<td>{format(weight, "f")}</td>'
    return f'<<table border="0" cellborder="0" cellpadding="1" bgcolor="white"><tr>{cell}</tr></table>>'


def unknown_marks(network: Network, marked: Sequence[str]) -> list[str]:
    """The labels that no link has."""
    known = set(network.labels())
    return [label for label in marked if label not in known]


# ---------------------------------------------------------------- writing


def write_picture(dot_text: str, path: str) -> None:
    """Writes SVG or PNG by Graphviz, or the Graphviz text itself, by the suffix of the path."""
    kind = Path(path).suffix.lower()
    if kind == ".dot":
        write_file(path, dot_text)
        return
    if kind not in (".svg", ".png"):
        raise ToolError(Exit.USAGE, f"{path}: the suffix says what is drawn: .svg, .png or .dot")
    program = shutil.which("dot")
    if program is None:
        raise missing("Graphviz (dot)", "Install it by: apt-get install graphviz; or write the text alone: -o FILE.dot")
    done = subprocess.run([program, f"-T{kind[1:]}", "-o", path], input=dot_text, text=True, capture_output=True, check=False)
    if done.returncode != 0:
        raise ToolError(Exit.REFUSED, f"dot: {done.stderr.strip()}")
