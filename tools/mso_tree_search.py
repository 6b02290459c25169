"""A tree of small width for the elements of a matrix: graphs, codes and matrices alike.

`find_tree` is the one entry. It proves nothing: `mso build` computes each boundary from the matrix anew and refuses a tree that
is too wide. What it does, in order:

1. Components are taken apart, and series and parallel elements joined; this loses nothing.
2. Several starts are made of what is left: interval trees of the given order and of greedy orders, merged light words (small
   circuits and cocircuits), elimination of sparse rows.
3. The cheapest starts are improved by local search on trees, for the seconds that are allowed.
4. The pieces are put together, the root is centred, and a tree that is too deep is made flatter.
"""

from __future__ import annotations

from collections.abc import Callable, Iterator, Sequence
from dataclasses import dataclass, field as dataclass_field
from enum import Enum
from functools import partial
from random import Random
from typing import Optional

from mso_tools import starts
from mso_tools.clock import Clock
from mso_tools.fields import Field, columns_of, field, support
from mso_tools.forms import Form, Forms, element_forms, forms_over
from mso_tools.improve import improved
from mso_tools.linear import orthogonal_rows, reduced_echelon
from mso_tools.reduce import Part, components, joined_classes, reduced_columns
from mso_tools.trees import (
    DEPTH_LIMIT, Tree, Widths, balanced, caterpillar, centred, depth, leaves, nodes, replaced, shortened, widths,
)
from mso_tools.words import light_words, lightest_words, words_of_rows

WIDTH_LIMIT = 6
"""The greatest boundary that `mso` takes."""

_DEEP = 1000
_STARTS_IMPROVED = 4
_ROUNDS = 6
_ROUNDS_WITHOUT_GAIN = 3
_GREEDY_ORDERS = 4
_DIGITS_A_COLUMN = 4
_WORDS_AN_ELEMENT = 60
_LATE = 1.5
_LEAST_REDUCED_WIDTH = 2


class Strategy(Enum):
    """How the tree is looked for."""

    SEARCH = "search"
    """Reductions, starts and local search."""
    GIVEN = "given"
    """The interval tree of the given order alone: at once, and best for convolutional codes in their own order."""
    PATH = "path"
    """The caterpillar of the given order."""


@dataclass(frozen=True)
class Options:
    """What a search may use. `moves`, where it is given, bounds local search by a count in place of the seconds."""

    seconds: float = 5.0
    seed: int = 1
    moves: Optional[int] = None
    strategy: Strategy = Strategy.SEARCH
    wanted: int = 1
    """A width at which the search may stop."""
    report: Callable[[str], None] = dataclass_field(default=lambda _: None)
    """Is told in a few words how far the search is."""


@dataclass(frozen=True)
class Found:
    """A tree, and what is known of it."""

    tree: Tree
    widths: Widths
    depth: int
    seconds: float

    @property
    def width(self) -> int:
        """The greatest boundary of the tree, as `mso build` will find it."""
        return self.widths.width

    @property
    def fits(self) -> bool:
        """Whether `mso` takes the tree."""
        return self.width <= WIDTH_LIMIT and self.depth <= DEPTH_LIMIT

    def two_sides(self) -> tuple[list[int], int]:
        """The elements below the first widest node, and how many lie outside it."""
        place = self.widths.of_nodes.index(self.width)
        node = next(node for number, node in enumerate(nodes(self.tree)) if number == place)
        below = leaves(node)
        return below, len(leaves(self.tree)) - len(below)


def find_tree(order: int, rows: Sequence[bytes], count: int, options: Options = Options()) -> Found:
    """A tree over the `count` elements of a matrix over the field with `order` elements; `count` is at least 1."""
    clock = Clock(options.seconds, options.moves)
    matrix = _Matrix(field(order), list(rows), count)
    parts = matrix.element_forms()
    if options.strategy is Strategy.SEARCH:
        tree = centred(_searched(matrix, parts, options, clock))
    else:
        tree = _tree_in_order(matrix, parts, options.strategy)
    tree = _flat_enough(matrix, parts, tree)
    return Found(tree, _built_widths(matrix, parts, tree), depth(tree), clock.elapsed)


@dataclass(frozen=True)
class _Matrix:
    """Rows of `count` digits each."""

    field: Field
    rows: list[bytes]
    count: int

    @property
    def forms(self) -> Forms:
        return forms_over(self.field)

    def element_forms(self) -> list[Form]:
        return element_forms(self.field, self.rows, self.count)


def _built_widths(matrix: _Matrix, parts: Sequence[Form], tree: Tree) -> Widths:
    """The boundaries as `mso build` makes them: a leaf whose column is not zero has boundary 1 also where it is a coloop."""
    counted = widths(tree, matrix.forms, parts).of_nodes
    zero = [not any(column) for column in columns_of(matrix.rows, matrix.count)]
    of_nodes = [
        (0 if zero[node] else 1) if isinstance(node, int) else boundary for node, boundary in zip(nodes(tree), counted)
    ]
    return Widths(of_nodes)


def _tree_in_order(matrix: _Matrix, parts: Sequence[Form], strategy: Strategy) -> Tree:
    order = range(matrix.count)
    if strategy is Strategy.PATH:
        return caterpillar(order)
    try:
        return starts.interval_tree(order, matrix.forms, parts)
    except starts.TooWide:
        return caterpillar(order)


def _flat_enough(matrix: _Matrix, parts: Sequence[Form], tree: Tree) -> Tree:
    """The tree, made flatter where it is nearly too deep, by joins no wider than it is already, and else up to the limit."""
    if depth(tree) <= _DEEP:
        return tree
    width = widths(tree, matrix.forms, parts).width
    for allowed in range(max(2, width), WIDTH_LIMIT + 1):
        tree = shortened(tree, matrix.forms, parts, allowed, _DEEP)
        if depth(tree) <= _DEEP:
            break
    return tree


# ---------------------------------------------------------------- reductions


def _searched(matrix: _Matrix, parts: Sequence[Form], options: Options, clock: Clock) -> Tree:
    """Components apart, each reduced and searched, and their trees joined."""
    echelon = reduced_echelon(matrix.field, matrix.rows)
    reduced = [
        joined_classes(matrix.forms, [Part(element, parts[element], element) for element in component])
        for component in components(echelon, matrix.count)
    ]
    total = sum(len(component) for component in reduced if len(component) > 3)
    trees: list[Tree] = []
    for component in reduced:
        inner = balanced(range(len(component)))
        if len(component) > 3:
            inner = _Core(matrix, component, options, clock, len(component) / total).tree()
        trees.append(replaced(inner, [part.tree for part in component]))
    return balanced(trees)


# ---------------------------------------------------------------- the search of one reduced component


@dataclass(frozen=True)
class _Try:
    """A tree of the reduced elements, with its cost and width."""

    cost: int
    width: int
    tree: Tree


class _Core:
    """The search of one connected component without series or parallel elements, of at least four elements."""

    def __init__(self, matrix: _Matrix, component: Sequence[Part], options: Options, clock: Clock, share: float) -> None:
        columns = reduced_columns(matrix.field, component, len(matrix.rows))
        self.rows = [row for row in columns_of(columns, len(matrix.rows)) if any(row)]
        self.reduced = _Matrix(matrix.field, self.rows, len(component))
        self.forms = matrix.forms
        self.parts = self.reduced.element_forms()
        self.options = options
        self.clock = Clock(clock.seconds * share, None if clock.moves is None else int(clock.moves * share) + 1)
        self.chance = Random(options.seed)
        self.wanted = max(options.wanted, _LEAST_REDUCED_WIDTH)

    def tree(self) -> Tree:
        """The cheapest tree found."""
        return self._improved(self._starts()).tree

    def _weighed(self, tree: Tree) -> _Try:
        found = widths(tree, self.forms, self.parts)
        return _Try(found.cost, found.width, tree)

    def _starts(self) -> list[_Try]:
        """The starts, the cheapest first; at least one."""
        tries: list[_Try] = []
        for name, make in self._ways():
            if tries and (not self.clock.within(0.5) or min(tries, key=_cost).width <= self.wanted):
                break
            try:
                tries.append(self._weighed(make()))
            except starts.TooWide:
                continue
            self._report(name, min(tries, key=_cost))
        narrow = [tried for tried in tries if tried.width <= starts.WIDE]
        return sorted(narrow or tries or [self._weighed(balanced(range(self.reduced.count)))], key=_cost)

    def _ways(self) -> Iterator[tuple[str, Callable[[], Tree]]]:
        """The names of the starts and how each is made."""
        count = self.reduced.count
        yield "given order", lambda: self._interval_tree(range(count))
        echelon = reduced_echelon(self.reduced.field, self.rows)
        null_rows = orthogonal_rows(self.reduced.field, echelon, count)
        for name, rows in (("rows", self.rows), ("null rows", null_rows)):
            yield from self._eliminations(name, rows)
        light = light_words(self.reduced.field, (echelon.rows, null_rows), self.chance, lambda: self.clock.within(0.2))
        words = lightest_words({*light, *words_of_rows(self.rows)}, _WORDS_AN_ELEMENT * count)
        yield "light words", lambda: starts.merged_words(words, self.forms, self.parts, lambda: self.clock.within(0.5))
        for _ in range(_GREEDY_ORDERS):
            yield "greedy order", lambda: self._interval_tree(
                starts.greedy_order(self.chance.randrange(count), words, self.forms, self.parts)
            )

    def _eliminations(self, name: str, rows: Sequence[bytes]) -> Iterator[tuple[str, Callable[[], Tree]]]:
        columns = [support(column) for column in columns_of(list(rows), self.reduced.count)]
        if sum(map(len, columns)) > _DIGITS_A_COLUMN * len(columns):
            return
        for by_fill in (True, False, False):
            yield f"elimination of {name}", partial(starts.eliminated_rows, columns, by_fill, self.chance)

    def _interval_tree(self, order: Sequence[int]) -> Tree:
        return starts.interval_tree(order, self.forms, self.parts)

    def _improved(self, tries: list[_Try]) -> _Try:
        """The cheapest of the best starts, each improved, and of a few more rounds from there; a hopeless one as it is."""
        best = tries[0]
        for start in tries[:_STARTS_IMPROVED]:
            if self._is_done(best):
                return best
            best = min(best, self._round(start), key=_cost)
            self._report("local search", best)
        idle = 0
        for _ in range(_ROUNDS):
            if self._is_done(best) or idle == _ROUNDS_WITHOUT_GAIN:
                return best
            better = self._round(best)
            idle = 0 if better.cost < best.cost else idle + 1
            best = min(best, better, key=_cost)
            self._report("local search", best)
        return best

    def _is_done(self, best: _Try) -> bool:
        """Whether local search is of no use: the tree is narrow enough, or far too wide, or the time is long over."""
        return best.width <= self.wanted or best.width > starts.WIDE or not self.clock.within(_LATE)

    def _round(self, start: _Try) -> _Try:
        """The cheapest of a tree, what a tenth of the budget makes of it, and the interval tree of that one's order."""
        tree = improved(start.tree, self.forms, self.parts, self.clock.slice(0.1), self.chance)
        tries = [start, self._weighed(tree)]
        if not self.clock.within(_LATE):
            return min(tries, key=_cost)
        try:
            tries.append(self._weighed(self._interval_tree(leaves(tree))))
        except starts.TooWide:
            pass
        return min(tries, key=_cost)

    def _report(self, what: str, best: _Try) -> None:
        self.options.report(f"{self.reduced.count} elements after reductions, width {best.width} so far ({what})")


def _cost(tried: _Try) -> int:
    return tried.cost
