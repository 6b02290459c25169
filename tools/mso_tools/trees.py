"""Trees over elements 0, 1, ..: a leaf is the number of its element, a join the pair of its two trees.

Trees may be thousands of joins deep, so nothing here calls itself.
"""

from __future__ import annotations

from collections.abc import Iterator, Sequence
from dataclasses import dataclass
from typing import Callable, Optional, TypeVar, Union

from .forms import Form, Forms

Tree = Union[int, tuple["Tree", "Tree"]]
Value = TypeVar("Value")

DEPTH_LIMIT = 1023
"""The most joins above a leaf that `mso` takes."""


def nodes(tree: Tree) -> Iterator[Tree]:
    """All nodes, children before their join and left before right."""
    waiting: list[tuple[Tree, bool]] = [(tree, False)]
    while waiting:
        node, children_done = waiting.pop()
        if children_done or isinstance(node, int):
            yield node
            continue
        waiting.append((node, True))
        waiting.append((node[1], False))
        waiting.append((node[0], False))


def fold(tree: Tree, leaf: Callable[[int], Value], join: Callable[[Value, Value], Value]) -> Value:
    """The value of the tree, from values of leaves upwards."""
    values: list[Value] = []
    for node in nodes(tree):
        if isinstance(node, int):
            values.append(leaf(node))
        else:
            right, left = values.pop(), values.pop()
            values.append(join(left, right))
    return values[0]


def leaves(tree: Tree) -> list[int]:
    """The elements from left to right."""
    return [node for node in nodes(tree) if isinstance(node, int)]


def depth(tree: Tree) -> int:
    """The number of joins above the deepest leaf."""

    def join(left: int, right: int) -> int:
        return 1 + max(left, right)

    return fold(tree, lambda _: 0, join)


def balanced(trees: Sequence[Tree]) -> Tree:
    """One tree of the given ones, in their order, by joins of neighbours; there is at least one."""
    level: list[Tree] = list(trees)
    while len(level) > 1:
        last = level[-1:] if len(level) % 2 else []
        level = [*zip(level[0::2], level[1::2]), *last]
    return level[0]


def caterpillar(order: Sequence[int]) -> Tree:
    """The tree whose joins are the fronts of the order."""
    tree: Tree = order[0]
    for element in order[1:]:
        tree = (tree, element)
    return tree


def replaced(tree: Tree, parts: Sequence[Tree]) -> Tree:
    """The tree with each leaf k replaced by `parts[k]`."""
    return fold(tree, lambda element: parts[element], lambda left, right: (left, right))


@dataclass(frozen=True)
class Widths:
    """The boundaries of a tree: one number for each node, in the order of `nodes`."""

    of_nodes: list[int]

    @property
    def width(self) -> int:
        """The greatest boundary."""
        return max(self.of_nodes)

    @property
    def widest(self) -> int:
        """The number of nodes with that boundary."""
        return self.of_nodes.count(self.width)

    @property
    def cost(self) -> int:
        """What the search makes small: the sum of 8 to the power of each boundary."""
        return sum(8**width for width in self.of_nodes)


def widths(tree: Tree, forms: Forms, parts: Sequence[Form]) -> Widths:
    """The boundaries of all nodes; `parts[k]` is the form of leaf k."""
    found: list[int] = []

    def noted(form: Form) -> Form:
        found.append(len(form))
        return form

    fold(tree, lambda element: noted(parts[element]), lambda left, right: noted(forms.plus(left, right)))
    return Widths(found)


@dataclass(frozen=True)
class _Tall:
    """A tree with its height, its form where one is kept, and its children."""

    height: int
    tree: Tree
    form: Form
    children: tuple["_Tall", ...]


def _tall_leaf(element: int, form: Form = ()) -> _Tall:
    return _Tall(0, element, form, ())


def _tall_join(left: _Tall, right: _Tall, form: Form = ()) -> _Tall:
    return _Tall(1 + max(left.height, right.height), (left.tree, right.tree), form, (left, right))


def _by_height(node: _Tall) -> tuple[_Tall, _Tall]:
    """The children, the taller one first."""
    left, right = node.children
    return (left, right) if left.height >= right.height else (right, left)


def centred(tree: Tree) -> Tree:
    """The same tree without a root, given the root that makes it least deep."""
    top = fold(tree, _tall_leaf, _tall_join)
    best = top
    rest: Optional[_Tall] = None
    while top.children:
        top, beside = _by_height(top)
        rest = beside if rest is None else _tall_join(beside, rest)
        turned = _tall_join(top, rest)
        if turned.height > best.height:
            break
        if turned.height < best.height:
            best = turned
    return best.tree


def shortened(tree: Tree, forms: Forms, parts: Sequence[Form], allowed: int, wanted: int = DEPTH_LIMIT) -> Tree:
    """A tree that is at most `wanted` deep, where turning ((S, a), b) into (S, (a, b)) reaches that.

    Only joins (a, b) of a boundary up to `allowed` are made.
    """
    before = depth(tree) + 1
    tree = centred(tree)
    while wanted < depth(tree) < before:
        before = depth(tree)
        tree = centred(_turned(tree, forms, parts, allowed))
    return tree


def _turned(tree: Tree, forms: Forms, parts: Sequence[Form], allowed: int) -> Tree:
    """One pass, from the leaves upwards, that turns each join where that makes it less deep."""

    def join(left: _Tall, right: _Tall) -> _Tall:
        form = forms.plus(left.form, right.form)
        deep, beside = (left, right) if left.height >= right.height else (right, left)
        if deep.children:
            tall, low = _by_height(deep)
            if tall.height > 1 + max(low.height, beside.height):
                together = forms.plus(low.form, beside.form)
                if len(together) <= allowed:
                    return _tall_join(tall, _tall_join(low, beside, together), form)
        return _tall_join(left, right, form)

    return fold(tree, lambda element: _tall_leaf(element, parts[element]), join).tree
