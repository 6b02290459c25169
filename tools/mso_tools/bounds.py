"""Bounds from below on the width of any tree, to say that a search is hopeless or done."""

from __future__ import annotations

from collections.abc import Iterable


def contraction_bound(edges: Iterable[tuple[int, int]]) -> int:
    """A width that no tree of the graph goes below, by contracting vertices of least degree.

    The largest least degree d that is met bounds treewidth from below, so branch-width is at least 2 (d + 1) / 3 and the width
    one less. Exact on complete graphs and wheels, weak on planar ones.
    """
    near: dict[int, set[int]] = {}
    for one, other in edges:
        if one != other:
            near.setdefault(one, set()).add(other)
            near.setdefault(other, set()).add(one)
    largest = 0
    while near:
        vertex = min(near, key=lambda other: len(near[other]))
        largest = max(largest, len(near[vertex]))
        _contract(near, vertex)
    return -(-2 * (largest + 1) // 3) - 1 if largest >= 2 else 0


def _contract(near: dict[int, set[int]], vertex: int) -> None:
    """Contracts a vertex into the neighbour with which it shares fewest neighbours."""
    others = near.pop(vertex)
    for other in others:
        near[other].discard(vertex)
    if not others:
        return
    into = min(others, key=lambda other: len(near[other] & others))
    for other in others - {into}:
        near[other].add(into)
        near[into].add(other)
