"""Local search on trees: a subtree is taken off and put elsewhere, where that makes the tree cheaper or luck allows it."""

from __future__ import annotations

from collections.abc import Sequence
from dataclasses import dataclass
from random import Random
from typing import Optional

from .clock import Slice
from .forms import Form, Forms
from .trees import Tree, nodes

_HEAT = 0.2
_LOOK_AT_CLOCK = 64
_NONE = -1


@dataclass(frozen=True)
class _Move:
    """The subtree `moved` is put on the edge above `beside`; `forms` has the new form of each node that changes."""

    moved: int
    beside: int
    forms: list[tuple[int, Form]]


class _Arrays:
    """A tree as arrays, its leaves first; `above` of the root is `_NONE`."""

    def __init__(self, tree: Tree, forms: Forms, parts: Sequence[Form]) -> None:
        self.forms = forms
        self.form: list[Form] = list(parts)
        count = len(parts)
        self.above = [_NONE] * (2 * count - 1)
        self.left = [_NONE] * (2 * count - 1)
        self.right = [_NONE] * (2 * count - 1)
        made: list[int] = []
        for node in nodes(tree):
            if isinstance(node, int):
                made.append(node)
                continue
            number = len(self.form)
            self.right[number], self.left[number] = made.pop(), made.pop()
            for child in (self.left[number], self.right[number]):
                self.above[child] = number
            self.form.append(forms.plus(self.form[self.left[number]], self.form[self.right[number]]))
            made.append(number)
        self.root = made[0]

    def sibling(self, node: int) -> int:
        """The other child of the join above a node."""
        above = self.above[node]
        return self.right[above] if self.left[above] == node else self.left[above]

    def replace_child(self, above: int, old: int, new: int) -> None:
        """Makes `new` the child of `above`, or the root, in place of `old`."""
        self.above[new] = above
        if above == _NONE:
            self.root = new
        elif self.left[above] == old:
            self.left[above] = new
        else:
            self.right[above] = new

    def apply(self, move: _Move) -> None:
        """Carries a move out."""
        join = self.above[move.moved]
        kept = self.sibling(move.moved)
        self.replace_child(self.above[join], join, kept)
        self.replace_child(self.above[move.beside], move.beside, join)
        self.left[join], self.right[join] = move.beside, move.moved
        self.above[move.beside] = self.above[move.moved] = join
        for node, form in move.forms:
            self.form[node] = form

    def tree_of(self, left: list[int], right: list[int], root: int) -> Tree:
        """The tree that a copy of the arrays describes."""
        made: list[Tree] = []
        waiting = [(root, False)]
        while waiting:
            node, children_done = waiting.pop()
            if left[node] == _NONE:
                made.append(node)
            elif children_done:
                second, first = made.pop(), made.pop()
                made.append((first, second))
            else:
                waiting += [(node, True), (right[node], False), (left[node], False)]
        return made[0]


class _Search:
    """A tree that changes, its cost, and the cheapest tree seen."""

    def __init__(self, tree: Tree, forms: Forms, parts: Sequence[Form], chance: Random) -> None:
        self.arrays = _Arrays(tree, forms, parts)
        self.chance = chance
        self.cost = sum(8 ** len(form) for form in self.arrays.form)
        self.keep_best()

    def keep_best(self) -> None:
        """Copies the present tree."""
        arrays = self.arrays
        self.best_cost = self.cost
        self.best = (list(arrays.left), list(arrays.right), arrays.root)

    def best_tree(self) -> Tree:
        """The cheapest tree seen."""
        return self.arrays.tree_of(*self.best)

    def step(self, heat: float) -> None:
        """Tries one move."""
        move = self.propose()
        if move is None:
            return
        form = self.arrays.form
        more = sum(8 ** len(new) - 8 ** len(form[node]) for node, new in move.forms)
        if more <= 0 or self.chance.random() < ((self.cost + more) / self.cost) ** (-8 / heat):
            self.arrays.apply(move)
            self.cost += more
            if self.cost < self.best_cost:
                self.keep_best()

    def propose(self) -> Optional[_Move]:
        """A random node, rather below a wide join, and a place for it a short walk away."""
        arrays = self.arrays
        moved = max((self._some_node() for _ in range(3)), key=lambda node: len(arrays.form[arrays.above[node]]))
        ups, downs = self._walk(moved)
        if not ups and len(downs) < 2:
            return None
        return self._move(moved, ups, downs)

    def _some_node(self) -> int:
        node = int(self.chance.random() * len(self.arrays.form))
        return node if node != self.arrays.root else self._some_node()

    def _walk(self, moved: int) -> tuple[list[int], list[int]]:
        """The nodes of a walk from the join above `moved`, not into `moved`: first those upwards, then those downwards."""
        arrays, chance = self.arrays, self.chance
        at = arrays.above[moved]
        came = moved
        ups: list[int] = []
        downs: list[int] = []
        while True:
            choices = [] if arrays.left[at] == _NONE else [arrays.left[at], arrays.right[at]]
            if not downs and arrays.above[at] != _NONE:
                choices.append(arrays.above[at])
            choices = [node for node in choices if node not in (came, moved)]
            if not choices:
                return ups, downs
            came, at = at, choices[int(chance.random() * len(choices))]
            if not downs and at == arrays.above[came]:
                ups.append(at)
            else:
                downs.append(at)
            if chance.random() < 0.4:
                return ups, downs

    def _move(self, moved: int, ups: list[int], downs: list[int]) -> _Move:
        """The forms after a move: nodes on the old side of the meeting place lose the moved subtree, on the new side gain it."""
        arrays = self.arrays
        form, minus, plus = arrays.form, arrays.forms.minus, arrays.forms.plus
        taken = form[moved]
        losing = ups if not downs else ups[:-1]
        changed = [(node, minus(form[node], taken)) for node in losing]
        changed += [(node, plus(form[node], taken)) for node in downs[:-1]]
        join = arrays.above[moved]
        if downs:
            beside = downs[-1]
            changed.append((join, plus(form[beside], taken)))
        else:
            beside = ups[-1]
            changed.append((join, form[beside]))
        return _Move(moved, beside, changed)


def improved(tree: Tree, forms: Forms, parts: Sequence[Form], bound: Slice, chance: Random) -> Tree:
    """The cheapest tree that a search within the bound meets, from `tree` on; it has three leaves or more."""
    search = _Search(tree, forms, parts, chance)
    count = 0
    heat = _HEAT
    while True:
        if count % _LOOK_AT_CLOCK == 0:
            used = bound.used(count)
            if used >= 1:
                return search.best_tree()
            heat = _HEAT * (1 - used)
        search.step(heat)
        count += 1
