"""Forms, reductions, shapes and the search, against ranks and known widths."""

from __future__ import annotations

import unittest
from functools import lru_cache
from random import Random

from mso_tools.bounds import contraction_bound
from mso_tools.code_files import read_code
from mso_tools.fields import ORDERS, field
from mso_tools.forms import Form, element_forms, forms_over
from mso_tools.graph_files import read_network
from mso_tools.shrink import contracted_rows, shrunk
from mso_tools.trees import caterpillar, centred, depth, leaves, nodes, shortened, widths
from mso_tree_search import Options, Strategy, find_tree

from .support import FILES, Edges, boundary, complete, digits, grid, incidence, random_rows, rank

COUNTED = Options(moves=6000)
"""A search that is the same on every machine."""


class FormsTest(unittest.TestCase):
    def test_number_of_terms_is_the_boundary(self) -> None:
        chance = Random(1)
        for _ in range(200):
            order, count = chance.choice(ORDERS), chance.randint(1, 9)
            rows = random_rows(chance, order, count, chance.randint(0, 5))
            forms, parts = forms_over(field(order)), element_forms(field(order), rows, count)
            inside = [element for element in range(count) if chance.random() < 0.5]
            form: Form = ()
            for element in inside:
                form = forms.plus(form, parts[element])
            self.assertEqual(len(form), boundary(order, rows, inside, count))
            for element in list(inside):
                form = forms.minus(form, parts[element])
                inside.remove(element)
                self.assertEqual(len(form), boundary(order, rows, inside, count))


class ShapesTest(unittest.TestCase):
    def test_root_is_centred(self) -> None:
        tree = centred(caterpillar(range(101)))
        self.assertEqual(depth(tree), 51)
        self.assertEqual(sorted(leaves(tree)), list(range(101)))

    def test_long_ladder_is_made_flat(self) -> None:
        rows = incidence(grid(2, 300))
        forms, parts = forms_over(field(2)), element_forms(field(2), rows, 898)
        tree = shortened(caterpillar(range(898)), forms, parts, 2, 60)
        self.assertLessEqual(depth(tree), 60)
        self.assertLessEqual(widths(tree, forms, parts).width, 2)
        self.assertEqual(sorted(leaves(tree)), list(range(898)))

    def test_ladder_of_the_greatest_size_fits(self) -> None:
        found = find_tree(2, incidence(grid(2, 1365)), 4093, COUNTED)
        self.assertTrue(found.fits)


class WidthsTest(unittest.TestCase):
    """The widths that are known, and those of random matrices by a look at all trees."""

    def check(self, rows: list[bytes], width: int, order: int = 2) -> None:
        count = len(rows[0])
        found = find_tree(order, rows, count, COUNTED)
        self.assertEqual(found.width, width)
        self.check_boundaries(order, rows, count)

    def check_boundaries(self, order: int, rows: list[bytes], count: int) -> None:
        found = find_tree(order, rows, count, Options(moves=100))
        self.assertEqual(sorted(leaves(found.tree)), list(range(count)))
        for node, width in zip(nodes(found.tree), found.widths.of_nodes):
            inside = leaves(node)
            if len(inside) > 1:
                self.assertEqual(width, boundary(order, rows, inside, count))

    def check_graph(self, edges: Edges, width: int) -> None:
        self.check(incidence(edges), width)

    def test_forests_and_loops(self) -> None:
        self.check_graph([(0, 1), (1, 2), (1, 3), (4, 5)], 1)
        self.check(digits("000"), 0)

    def test_cycles_ladders_and_series_parallel_graphs(self) -> None:
        self.check_graph([(k, (k + 1) % 9) for k in range(9)], 1)
        self.check_graph(grid(2, 12), 1)
        self.check_graph([(0, 1), (0, 1), (1, 2), (0, 2), (2, 3), (0, 3), (3, 4), (0, 4)], 1)

    def test_wheels_and_grids(self) -> None:
        self.check_graph([(0, k) for k in range(1, 13)] + [(k, k % 12 + 1) for k in range(1, 13)], 2)
        self.check_graph(grid(3, 8), 2)
        self.check_graph(grid(4, 7), 3)
        self.check_graph(grid(5, 6), 4)

    def test_complete_graphs(self) -> None:
        for count, width in ((4, 2), (5, 3), (6, 3), (8, 5)):
            self.check_graph(complete(count), width)
            self.assertEqual(contraction_bound(complete(count)), width)

    def test_named_graphs(self) -> None:
        self.check_graph([(a, b) for a in range(3) for b in range(3, 6)], 2)
        outer = [(k, (k + 1) % 5) for k in range(5)]
        self.check_graph(outer + [(k, k + 5) for k in range(5)] + [(k + 5, (k + 2) % 5 + 5) for k in range(5)], 3)

    def test_codes(self) -> None:
        self.check(digits("1001101", "0101011", "0010111"), 2)
        self.check(golay(), 6)
        self.check(digits("100122", "010212", "001221"), 2, 3)
        self.check(digits("100123", "010132", "001111"), 2, 4)

    def test_families_of_codes(self) -> None:
        for rank_of_code in (3, 4):
            count = 2**rank_of_code - 1
            hamming = [bytes(place >> row & 1 for place in range(1, count + 1)) for row in range(rank_of_code)]
            self.check(hamming, rank_of_code - 1)
            reed_muller = [bytes([1] * (count + 1)), *(b"\0" + row for row in hamming)]
            self.check(reed_muller, rank_of_code - 1)

    def test_convolutional_codes(self) -> None:
        """The given order reaches the memory, and the search does not miss it."""
        for name, memory in (("5_7", 2), ("15_17", 3), ("23_35", 4), ("53_75", 5), ("133_171", 6)):
            matroid = read_code(str(FILES / f"conv_{name}.txt"), None, None).matroid
            given = find_tree(2, matroid.rows, matroid.count, Options(strategy=Strategy.GIVEN))
            self.assertEqual(given.width, memory)
            self.assertLessEqual(find_tree(2, matroid.rows, matroid.count, Options(moves=2000)).width, memory)

    def test_networks_of_the_gallery(self) -> None:
        for name, width in (("abilene.csv", 1), ("nsfnet.edges", 2), ("ladder.edges", 1), ("streets.csv", 2)):
            matroid = read_network(str(FILES / name), None, None).matroid(2)
            self.assertEqual(find_tree(2, matroid.rows, matroid.count, COUNTED).width, width)

    def test_signs_change_no_width(self) -> None:
        for order in ORDERS:
            self.check(incidence(grid(3, 5), order), 2, order)

    def test_small_matrices_reach_the_least_width(self) -> None:
        chance = Random(5)
        for _ in range(24):
            order, count = chance.choice(ORDERS), chance.randint(5, 9)
            rows = random_rows(chance, order, count, chance.randint(2, 5))
            self.assertEqual(find_tree(order, rows, count, COUNTED).width, least_width(order, rows, count))

    def test_given_order_and_path(self) -> None:
        rows = golay()
        self.assertGreaterEqual(find_tree(2, rows, 24, Options(strategy=Strategy.PATH)).width, 9)
        tree = find_tree(2, rows, 24, Options(strategy=Strategy.GIVEN)).tree
        self.assertEqual(leaves(tree), list(range(24)))


class ShrinkTest(unittest.TestCase):
    def test_removals_make_a_tree_fit(self) -> None:
        for edges, limit in ((complete(6), 2), (grid(4, 5), 2)):
            rows = incidence(edges)
            tree = find_tree(2, rows, len(edges), COUNTED).tree
            removals = shrunk(field(2), rows, tree, len(edges), limit, 0.2)
            self.assertIsNotNone(removals)
            self.assertEqual(len({removal.element for removal in removals or []}), len(removals or []))

    def test_contraction_is_that_of_the_matroid(self) -> None:
        chance = Random(8)
        for _ in range(40):
            order, count = chance.choice(ORDERS), chance.randint(2, 7)
            rows = random_rows(chance, order, count, chance.randint(1, 4))
            element = chance.randrange(count)
            fewer = contracted_rows(field(order), rows, element)
            inside = [other for other in range(count) if other != element and chance.random() < 0.5]
            expected = rank(order, rows, [*inside, element]) - rank(order, rows, [element])
            self.assertEqual(rank(order, fewer, inside), expected)


def golay() -> list[bytes]:
    """The extended binary Golay code: the cyclic code of length 23 and a parity digit."""
    taps = "101011100011"
    rows = [("0" * shift + taps).ljust(23, "0") for shift in range(12)]
    return digits(*(row + str(row.count("1") % 2) for row in rows))


def least_width(order: int, rows: list[bytes], count: int) -> int:
    """The least width of all trees, by the least width of each set of elements."""

    @lru_cache(maxsize=None)
    def least(inside: frozenset[int]) -> int:
        own = boundary(order, rows, sorted(inside), count)
        first = min(inside)
        if len(inside) == 1:
            return 1 if any(row[first] for row in rows) else 0
        rest = sorted(inside - {first})
        halves = (
            frozenset({first} | {element for place, element in enumerate(rest) if chosen >> place & 1})
            for chosen in range(2 ** len(rest) - 1)
        )
        return max(own, min(max(least(half), least(inside - half)) for half in halves))

    return least(frozenset(range(count)))


if __name__ == "__main__":
    unittest.main()
