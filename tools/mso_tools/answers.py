"""Answer lines of `mso`, read back into the user's names and units."""

from __future__ import annotations

from collections.abc import Sequence
from dataclasses import dataclass
from typing import Optional

from .matroid import Labels, Weights
from .questions import Least


@dataclass(frozen=True)
class LightestSet:
    """The elements of a lightest set, as numbers, and the sum of their weights in the file."""

    elements: list[int]
    weight: int


def read_set(line: str, labels: Labels) -> Optional[list[int]]:
    """The elements of a line `least W NAMES`, ascending; None for `none`."""
    words = line.split()
    if words[0] == "none":
        return None
    number = {name: place for place, name in enumerate(labels.names)}
    return sorted(number[name] for name in words[2:])


def lightest_set(
    line: str, question: Least, labels: Labels, weights: Sequence[int], failed: frozenset[int]
) -> Optional[LightestSet]:
    """What a line says of the file: None where there is no such set, or none without the elements that failed.

    `weights` are those of the file at this line. A failed element counts nothing in a cut; every other set must do without it.
    """
    elements = read_set(line, labels)
    if elements is None:
        return None
    if question.link is not None:
        if question.link not in elements:
            return None
        elements.remove(question.link)
    left = [element for element in elements if element not in failed]
    if len(left) < len(elements) and not question.on_dual:
        return None
    return LightestSet(left, sum(weights[element] for element in left))


def shown(found: Optional[LightestSet], what: str, labels: Labels, weights: Sequence[int], units: Weights) -> list[str]:
    """The lines that tell a lightest set: its weight, and each element with its own."""
    if found is None:
        return [f"lightest {what}: none"]
    lines = [f"lightest {what}: weight {units.shown(found.weight)}"]
    named = [(labels.labels[element], units.shown(weights[element])) for element in found.elements]
    if all(weights[element] == units.scale for element in found.elements):
        return lines + ["  " + " ".join(label for label, _ in named)] if named else lines
    wide = max(len(label) for label, _ in named)
    return lines + [f"  {label.ljust(wide)}  {weight}" for label, weight in named]
