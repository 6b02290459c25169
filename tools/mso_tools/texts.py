"""Texts that `mso` reads: a decomposition for `build`, and the header of a job with a question."""

from __future__ import annotations

from collections.abc import Sequence

from .fields import text_of
from .matroid import Matroid
from .trees import Tree, nodes

_NAMES_A_LINE = 64


def build_text(matroid: Matroid, tree: Tree, notes: Sequence[str] = ()) -> str:
    """The text for `mso build`, with notes as comments below its first line."""
    names = matroid.labels.names
    lines = ["mso-build 1", *(f"# {note}" for note in notes), f"field {matroid.order}"]
    for first in range(0, len(names), _NAMES_A_LINE):
        lines.append("elements " + " ".join(names[first : first + _NAMES_A_LINE]))
    lines += [f"row {text_of(row)}" for row in matroid.rows]
    lines.append("shape")
    for node in nodes(tree):
        lines.append(f"leaf {names[node]} {matroid.weights.whole[node]}" if isinstance(node, int) else "join")
    return "\n".join(lines) + "\nend\n"


def job_text(header: str, question: str) -> str:
    """A job: the header that `mso build` or `mso dual` wrote, and a question below it."""
    return f"{header}{question}\n"
