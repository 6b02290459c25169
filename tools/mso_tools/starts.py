"""First trees for the search: by an order of the elements, by light words, and by elimination of sparse rows."""

from __future__ import annotations

import heapq
from collections.abc import Callable, Sequence
from random import Random
from typing import Optional

from .forms import Form, Forms
from .trees import Tree, balanced
from .words import Word

WIDE = 24
"""A start is given up where a form has more terms: what follows would be slow, and no tree of use comes of it."""

_WINDOW = 40
_ALL_INTERVALS = 150
_LOOKED_AT = 24
_MANY_ROWS = 64


class TooWide(Exception):
    """A start met a set whose boundary is above `WIDE`."""


def _narrow(form: Form) -> Form:
    if len(form) > WIDE:
        raise TooWide
    return form


# ---------------------------------------------------------------- interval trees


def interval_tree(order: Sequence[int], forms: Forms, parts: Sequence[Form]) -> Tree:
    """The cheapest tree whose nodes are intervals of the order: all of them for up to 150 elements, else short ones and fronts.

    It is at least as good as the caterpillar and the balanced tree of the order.
    """
    window = len(order) if len(order) <= _ALL_INTERVALS else _WINDOW
    costs, cuts = _intervals(order, forms, parts, window)
    if window == len(order):
        return _tree_of(order, cuts, 0, len(order))
    return _tree_of_fronts(order, forms, parts, costs, cuts)


_Costs = list[list[int]]
"""At [start][length - 1]: the least cost of a tree of that interval, or the first length of its cut."""


def _intervals(order: Sequence[int], forms: Forms, parts: Sequence[Form], window: int) -> tuple[_Costs, _Costs]:
    """The least costs of the intervals of at most `window` elements, and how each is cut in two."""
    count = len(order)
    boundaries = [_boundaries(order[start : start + window], forms, parts) for start in range(count)]
    costs: _Costs = [[8 ** line[0]] for line in boundaries]
    cuts: _Costs = [[0] for _ in order]
    for length in range(2, window + 1):
        for start in range(count - length + 1):
            ways = ((costs[start][k - 1] + costs[start + k][length - k - 1], k) for k in range(1, length))
            cost, cut = min(ways)
            costs[start].append(cost + 8 ** boundaries[start][length - 1])
            cuts[start].append(cut)
    return costs, cuts


def _boundaries(elements: Sequence[int], forms: Forms, parts: Sequence[Form]) -> list[int]:
    """The boundaries of the fronts of some elements."""
    form: Form = ()
    found = []
    for element in elements:
        form = _narrow(forms.plus(form, parts[element]))
        found.append(len(form))
    return found


def _tree_of(order: Sequence[int], cuts: _Costs, start: int, length: int) -> Tree:
    """The tree of an interval by its cuts; at most as deep as the interval is long."""
    made: list[Tree] = []
    waiting: list[Optional[tuple[int, int]]] = [(start, length)]
    while waiting:
        piece = waiting.pop()
        if piece is None:
            right, left = made.pop(), made.pop()
            made.append((left, right))
        elif piece[1] == 1:
            made.append(order[piece[0]])
        else:
            cut = cuts[piece[0]][piece[1] - 1]
            waiting += [None, (piece[0] + cut, piece[1] - cut), (piece[0], cut)]
    return made[0]


def _tree_of_fronts(order: Sequence[int], forms: Forms, parts: Sequence[Form], costs: _Costs, cuts: _Costs) -> Tree:
    """The cheapest tree whose nodes are fronts of the order and short intervals."""
    fronts = _boundaries(order, forms, parts)
    cost = [0]
    last = [0]
    for end in range(1, len(order) + 1):
        ways = ((cost[end - k] + costs[end - k][k - 1], k) for k in range(1, min(end, _WINDOW) + 1))
        least, length = min(ways)
        cost.append(least + 8 ** fronts[end - 1])
        last.append(length)
    pieces: list[Tree] = []
    end = len(order)
    while end:
        pieces.append(_tree_of(order, cuts, end - last[end], last[end]))
        end -= last[end]
    tree = pieces.pop()
    while pieces:
        tree = (tree, pieces.pop())
    return tree


# ---------------------------------------------------------------- merging the parts of light words


class _Merging:
    """Parts that grow by joins, with what each light word still has of them."""

    def __init__(self, words: Sequence[Word], forms: Forms, parts: Sequence[Form], going_on: Callable[[], bool]) -> None:
        self.forms = forms
        self.going_on = going_on
        self.form: dict[int, Form] = dict(enumerate(parts))
        self.tree: dict[int, Tree] = {element: element for element in self.form}
        self.words = {number: set(word) for number, word in enumerate(words) if len(word) > 1}
        self.words_of: dict[int, set[int]] = {element: set() for element in self.form}
        for number, word in self.words.items():
            for element in word:
                self.words_of[element].add(number)
        self.waiting = [self._entry(number) for number in self.words]
        heapq.heapify(self.waiting)

    def _entry(self, number: int) -> tuple[int, int, int]:
        """The boundary of all that a word has, and the number of its parts: the lightest is merged first."""
        if not self.going_on():
            raise TooWide
        form: Form = ()
        for part in sorted(self.words[number]):
            form = self.forms.plus(form, self.form[part])
            if len(form) > WIDE:
                break
        return (len(form), len(self.words[number]), number)

    def lightest(self) -> Optional[set[int]]:
        """The parts of the word that is to be merged next."""
        while self.waiting:
            entry = heapq.heappop(self.waiting)
            word = self.words.get(entry[2])
            if word is not None and len(word) > 1 and entry == self._entry(entry[2]):
                return word
        return None

    def join(self, one: int, other: int) -> None:
        """Makes one part, by the name of the first, of two."""
        self.form[one] = _narrow(self.forms.plus(self.form[one], self.form.pop(other)))
        self.tree[one] = (self.tree[one], self.tree.pop(other))
        for number in self.words_of.pop(other):
            self.words[number].discard(other)
            self.words[number].add(one)
            self.words_of[one].add(number)

    def weigh_again(self, part: int) -> None:
        """Puts the words of a part that has grown back in line, each set of parts once."""
        seen: set[Word] = set()
        for number in sorted(self.words_of[part]):
            word = frozenset(self.words[number])
            if len(word) == 1 or word in seen:
                self._forget(number)
                continue
            seen.add(word)
            heapq.heappush(self.waiting, self._entry(number))

    def _forget(self, number: int) -> None:
        for part in self.words.pop(number):
            self.words_of[part].discard(number)

    def nearest_pair(self, word: set[int]) -> tuple[int, int]:
        """The two parts of a word that have the least boundary together."""
        members = sorted(word)
        pairs = ((one, other) for place, one in enumerate(members) for other in members[place + 1 :])
        return min(pairs, key=lambda pair: len(self.forms.plus(self.form[pair[0]], self.form[pair[1]])))


def merged_words(words: Sequence[Word], forms: Forms, parts: Sequence[Form], going_on: Callable[[], bool]) -> Tree:
    """Takes the word whose parts together have the least boundary, joins them, and goes on so.

    Raises `TooWide` also where `going_on` says no before the end.
    """
    merging = _Merging(words, forms, parts, going_on)
    word = merging.lightest()
    while word is not None:
        part = min(word)
        while len(word) > 1:
            one, other = merging.nearest_pair(word)
            merging.join(one, other)
            part = one
        merging.weigh_again(part)
        word = merging.lightest()
    return balanced(list(merging.tree.values()))


# ---------------------------------------------------------------- greedy orders


def greedy_order(start: int, words: Sequence[Word], forms: Forms, parts: Sequence[Form]) -> list[int]:
    """Begins with an element and takes next, among those that light words ask for most, the one with the narrowest front."""
    words_of: list[list[int]] = [[] for _ in parts]
    for number, word in enumerate(words):
        for element in word:
            words_of[element].append(number)
    outside = [len(word) for word in words]
    score = [sum(0.25 ** outside[number] for number in numbers) for numbers in words_of]
    left = set(range(len(parts)))
    order: list[int] = []
    front: Form = ()
    element = start
    while True:
        order.append(element)
        left.discard(element)
        front = _narrow(forms.plus(front, parts[element]))
        if not left:
            return order
        _raise_scores(element, words, words_of, outside, score)
        asked = heapq.nlargest(_LOOKED_AT, left, key=lambda other: (score[other], -other))
        element = min(asked, key=lambda other: len(forms.plus(front, parts[other])))


def _raise_scores(
    element: int, words: Sequence[Word], words_of: list[list[int]], outside: list[int], score: list[float]
) -> None:
    """Each word of the element has one element less outside now, and asks four times as much for the others."""
    for number in words_of[element]:
        more = 3 * 0.25 ** outside[number]
        outside[number] -= 1
        for other in words[number]:
            score[other] += more


# ---------------------------------------------------------------- elimination of sparse rows


def eliminated_rows(columns: Sequence[Sequence[int]], by_fill: bool, chance: Random) -> Tree:
    """For each row in turn all parts that have a digit in it are joined, the pair with the fewest rows together first.

    `columns[k]` lists the rows in which element k has a digit. The next row is the one of least fill, or of least degree,
    where two rows are neighbours if some part has digits in both. Raises `TooWide` where a part has digits in many rows.
    """
    rows_of: dict[int, frozenset[int]] = {element: frozenset(rows) for element, rows in enumerate(columns)}
    trees: dict[int, Tree] = {element: element for element in rows_of}
    parts_of: dict[int, set[int]] = {}
    for element, rows in rows_of.items():
        for row in rows:
            parts_of.setdefault(row, set()).add(element)
    near = {row: set().union(*(rows_of[part] for part in parts)) - {row} for row, parts in parts_of.items()}
    while near:
        row = _next_row(near, by_fill, chance)
        part = _join_all(parts_of.pop(row), rows_of, trees, parts_of)
        rows_of[part] = rows_of[part] - {row}
        _eliminate(row, near)
    return balanced(list(trees.values()))


def _next_row(near: dict[int, set[int]], by_fill: bool, chance: Random) -> int:
    """The row of least degree or, among the few of least degree, of least fill; ties by chance."""
    ranked = ((len(others), chance.random(), row) for row, others in near.items())
    if not by_fill:
        return min(ranked)[2]
    few = heapq.nsmallest(_LOOKED_AT, ranked)
    return min(few, key=lambda entry: (_fill(near, entry[2]), entry))[2]


def _fill(near: dict[int, set[int]], row: int) -> int:
    """The pairs of neighbours of a row that are not neighbours of each other."""
    others = near[row]
    return sum(len(others) - 1 - len(others & near[other]) for other in others) // 2


def _eliminate(row: int, near: dict[int, set[int]]) -> None:
    """Takes a row out and makes its neighbours neighbours of each other."""
    others = near.pop(row)
    for other in others:
        near[other] |= others
        near[other] -= {other, row}


def _join_all(
    members: set[int], rows_of: dict[int, frozenset[int]], trees: dict[int, Tree], parts_of: dict[int, set[int]]
) -> int:
    """Joins the parts of one row into one, and gives its name."""
    members = set(members)
    while len(members) > 1:
        listed = sorted(members)
        pairs = ((one, other) for place, one in enumerate(listed) for other in listed[place + 1 :])
        one, other = min(pairs, key=lambda pair: (len(rows_of[pair[0]] | rows_of[pair[1]]), pair))
        for row in rows_of[other]:
            if row in parts_of:
                parts_of[row].discard(other)
                parts_of[row].add(one)
        rows_of[one] |= rows_of.pop(other)
        if len(rows_of[one]) > _MANY_ROWS:
            raise TooWide
        trees[one] = (trees[one], trees.pop(other))
        members.discard(other)
    return min(members)
