"""The programs: texts that `mso` takes, answers against brute force, exit codes."""

from __future__ import annotations

import re
import tempfile
import unittest
from collections.abc import Iterator, Sequence
from itertools import combinations
from pathlib import Path
from random import Random
from typing import Optional

from mso_tools.code_files import read_code
from mso_tools.errors import Exit
from mso_tools.fields import ORDERS
from mso_tools.graph_files import read_network
from mso_tools.matroid import Matroid
from mso_tools.program import Program
from mso_tools.questions import MINORS, PROPERTIES, lightest, lightest_between, minor_named, property_named
from mso_tools.texts import build_text, job_text
from mso_tools.trees import nodes
from mso_tree_search import Found, Options, find_tree

from .support import FILES, FUZZ, command, needs_mso, rank

QUICK = Options(moves=300)


class ExitCodesTest(unittest.TestCase):
    def setUp(self) -> None:
        folder = tempfile.TemporaryDirectory()
        self.addCleanup(folder.cleanup)
        self.folder = Path(folder.name)

    def check(self, code: Exit, words: str, *line: object) -> None:
        done = command(*map(str, line))
        self.assertEqual(done.returncode, code, done.stderr)
        self.assertIn(words, done.stdout + done.stderr)

    def test_help(self) -> None:
        for name in ("mso_from_graph.py", "mso_from_code.py", "mso_ask.py", "mso_draw.py"):
            self.check(Exit.DONE, "exit codes: 0 done", name, "--help")

    def test_wrong_words(self) -> None:
        self.check(Exit.USAGE, "required", "mso_ask.py", FILES / "abilene.csv")
        self.check(Exit.USAGE, "needs --between", "mso_ask.py", FILES / "abilene.csv", "--lightest", "path")
        self.check(Exit.USAGE, "not allowed with", "mso_from_graph.py", FILES / "abilene.csv", "--given", "--path")
        self.check(Exit.USAGE, "a number above 0", "mso_from_graph.py", FILES / "abilene.csv", "--seconds", "0")

    def test_wrong_file(self) -> None:
        path = self.folder / "wrong.edges"
        path.write_text("a b 1\na b c d\n")
        self.check(Exit.REFUSED, f"{path}:2: 4 words", "mso_from_graph.py", path)

    def test_too_wide(self) -> None:
        path = self.folder / "k12.edges"
        path.write_text("".join(f"{one} {other}\n" for one, other in combinations(range(12), 2)))
        self.check(Exit.TOO_WIDE, "No tree is narrower than 7", "mso_from_graph.py", path)
        self.check(Exit.DONE, "shape", "mso_from_graph.py", path, "--seconds", "0.1", "--force")
        path = self.folder / "random.txt"
        chance = Random(2)
        path.write_text("".join("".join(str(chance.randrange(2)) for _ in range(60)) + "\n" for _ in range(30)))
        self.check(Exit.TOO_WIDE, "The widest node separates", "mso_from_code.py", path, "--seconds", "0.2")

    def test_program_is_missing(self) -> None:
        words = ("mso_ask.py", FILES / "abilene.csv", "--lightest", "cut", "--mso", self.folder / "mso")
        self.check(Exit.MISSING, "Build it", *words)

    @needs_mso
    def test_program_refuses(self) -> None:
        words = ("mso_ask.py", FILES / "abilene.csv", "--formula", "decide ind(")
        self.check(Exit.PROGRAM_REFUSED, "refused formula", *words)
        words = ("mso_from_graph.py", FILES / "abilene.csv", "--job", "least X ind(Y)")
        self.check(Exit.PROGRAM_REFUSED, "refused unbound Y", *words)

    def test_names(self) -> None:
        table = self.folder / "names"
        self.check(Exit.DONE, "width 1", "mso_from_graph.py", FILES / "abilene.csv", "--names", table)
        self.assertEqual(len(table.read_text().splitlines()), 14)


# ---------------------------------------------------------------- texts that mso takes


def random_file(chance: Random, folder: Path) -> Path:
    """A random network or code; some with loops, parallel links, zero rows and columns, negative weights."""
    kind = chance.randrange(4)
    if kind == 0:
        path = folder / "code.txt"
        order, count = chance.choice(ORDERS), chance.randint(1, 14)
        rows = ("".join(str(chance.choice((0, chance.randrange(order)))) for _ in range(count)) for _ in range(chance.randint(1, 7)))
        path.write_text(f"field {order}\n" + "\n".join(rows) + "\n")
        return path
    if kind == 1:
        path = folder / "conv.txt"
        generators = [chance.randint(1, 15) for _ in range(chance.randint(2, 3))]
        path.write_text(f"generators {' '.join(format(one, 'o') for one in generators)}\nlength {chance.randint(1, 12)}\n")
        return path
    path = folder / "network.edges"
    vertices = chance.randint(1, chance.choice((4, 12, 30)))
    links = [
        (chance.randrange(vertices), chance.randrange(vertices), chance.randint(-3, 20)) for _ in range(chance.randint(1, 2 * vertices))
    ]
    path.write_text("".join(f"v{one} v{other} {weight}\n" for one, other, weight in links))
    return path


def matroid_of(path: Path, chance: Random) -> Matroid:
    """What the programs make of a file."""
    if path.suffix == ".edges":
        return read_network(str(path), None, None).matroid(chance.choice(ORDERS))
    return read_code(str(path), None, None).by_parity_checks()


def boundaries_of_joins(header: str) -> list[int]:
    """The third boundary of each operator of a header."""
    return [int(line.split()[4]) for line in header.splitlines() if line.startswith("op ")]


@needs_mso
class FuzzTest(unittest.TestCase):
    def test_no_text_is_refused_but_for_its_width(self) -> None:
        chance = Random(FUZZ)
        program = Program.find(None)
        with tempfile.TemporaryDirectory() as folder:
            for number in range(FUZZ):
                matroid = matroid_of(random_file(chance, Path(folder)), chance)
                with self.subTest(number=number):
                    self.check(program, matroid)

    def check(self, program: Program, matroid: Matroid) -> None:
        """`mso build` finds the boundaries that the search counted, and its dual has them too."""
        found = find_tree(matroid.order, matroid.rows, matroid.count, QUICK)
        if not found.fits:
            return
        header = program.output(["build"], build_text(matroid, found.tree))
        counted = joins_of(found)
        self.assertEqual(boundaries_of_joins(header), counted)
        self.assertEqual(boundaries_of_joins(program.output(["dual"], header)), counted)
        answer = program.output(["run"], job_text(header, "decide ind(*)"))
        independent = rank(matroid.order, matroid.rows, range(matroid.count)) == matroid.count
        self.assertEqual(answer.strip(), "true" if independent else "false")


def joins_of(found: Found) -> list[int]:
    """The boundaries of the joins, in the order of a text."""
    pairs = zip(nodes(found.tree), found.widths.of_nodes)
    return [width for node, width in pairs if not isinstance(node, int)]


# ---------------------------------------------------------------- answers against brute force


class Small:
    """A small matroid by its independent sets."""

    def __init__(self, matroid: Matroid) -> None:
        self.matroid = matroid
        self.all = range(matroid.count)
        self.full = self.rank(self.all)

    def rank(self, elements: Sequence[int]) -> int:
        return rank(self.matroid.order, self.matroid.rows, list(elements))

    def sets(self) -> Iterator[tuple[int, ...]]:
        for size in range(self.matroid.count + 1):
            yield from combinations(self.all, size)

    def is_circuit(self, elements: tuple[int, ...]) -> bool:
        size = len(elements)
        return size > 0 and self.rank(elements) == size - 1 and all(
            self.rank(part) == size - 1 for part in combinations(elements, size - 1)
        )

    def is_cocircuit(self, elements: tuple[int, ...]) -> bool:
        rest = [element for element in self.all if element not in elements]
        return bool(elements) and self.rank(rest) == self.full - 1 and all(
            self.rank([*rest, element]) == self.full for element in elements
        )

    def is_basis(self, elements: tuple[int, ...]) -> bool:
        return len(elements) == self.full == self.rank(elements)

    def least(self, kind: str) -> Optional[int]:
        """The least weight of a set of a kind."""
        fits = {"circuit": self.is_circuit, "cocircuit": self.is_cocircuit, "basis": self.is_basis}[kind]
        weights = self.matroid.weights.whole
        return min((sum(weights[element] for element in elements) for elements in self.sets() if fits(elements)), default=None)


def random_network(chance: Random, least_weight: int) -> str:
    """A connected network with a few links, as an edge list."""
    vertices = chance.randint(3, 5)
    pairs = [(chance.randrange(vertex), vertex) for vertex in range(1, vertices)]
    pairs += [(chance.randrange(vertices), chance.randrange(vertices)) for _ in range(chance.randint(1, 4))]
    return "".join(f"v{one} v{other} {chance.randint(least_weight, 9)}\n" for one, other in pairs)


@needs_mso
class AnswersTest(unittest.TestCase):
    def setUp(self) -> None:
        folder = tempfile.TemporaryDirectory()
        self.addCleanup(folder.cleanup)
        self.path = Path(folder.name) / "network.edges"

    def ask(self, *words: str) -> list[str]:
        done = command("mso_ask.py", self.path, *words, "--line", "--seconds", "0.2")
        self.assertEqual(done.returncode, 0, done.stderr)
        return done.stdout.splitlines()

    def weight(self, *words: str) -> Optional[int]:
        answer = self.ask(*words)[0]
        return None if answer == "none" else int(answer.split("\t")[0])

    def test_lightest_sets_of_random_networks(self) -> None:
        chance = Random(3)
        for round_number in range(4):
            self.path.write_text(random_network(chance, -3 if round_number % 2 else 0))
            small = Small(read_network(str(self.path), None, None).matroid(2))
            for kind in ("circuit", "cocircuit", "basis"):
                with self.subTest(network=self.path.read_text(), kind=kind):
                    self.assertEqual(self.weight("--lightest", kind), small.least(kind))

    def test_path_and_cut_between(self) -> None:
        self.path.write_text("a b 1\nb c 2\na c 5\nc d 2\n")
        self.assertEqual(self.ask("--lightest", "path", "--between", "a", "c"), ["3\ta-b\tb-c"])
        self.assertEqual(self.ask("--lightest", "cut", "--between", "a", "c"), ["6\ta-b\ta-c"])
        self.path.write_text("a b 1\nc d 1\n")
        self.assertEqual(self.ask("--lightest", "path", "--between", "a", "c"), ["none"])

    def test_changes(self) -> None:
        self.path.write_text("a b 0.5\nb c 1\na c 5\n")
        changes = ("--then", "a-b=3.5", "--then", "a-c=fails")
        self.assertEqual(self.ask("--lightest", "cut", *changes), ["1.5\ta-b\tb-c", "4.5\ta-b\tb-c", "1\tb-c"])
        self.assertEqual(self.ask("--lightest", "tree", *changes), ["1.5\ta-b\tb-c", "4.5\ta-b\tb-c", "4.5\ta-b\tb-c"])
        self.assertEqual(self.ask("--lightest", "cycle", *changes), ["6.5\ta-b\tb-c\ta-c", "9.5\ta-b\tb-c\ta-c", "none"])

    def test_formulas_are_read(self) -> None:
        """Each formula that is asked is one, and holds where it must."""
        self.path.write_text("a b\nb c\na c\na d\nb d\nc d\n")
        network = read_network(str(self.path), None, None)
        small = Small(network.matroid(2))
        self.assertEqual(small.full, 3)
        yes = {"loopless", "simple", "connected", "3-connected", "cosimple", "survives-1", "survives-2", "two-independent", "two-bases"}
        for name in PROPERTIES:
            with self.subTest(name=name):
                self.assertEqual(self.ask("--is", name), ["true" if name in yes else "false"])

    def test_query_lines_fit(self) -> None:
        weights = [1, 2, 3]
        asked = [property_named(name, 9).line for name in PROPERTIES] + [minor_named(name, 2).line for name in MINORS]
        asked += [lightest("cycle", weights).line, lightest("tree", weights).line, lightest_between("cut", weights, 2).line]
        for line in asked:
            self.assertLess(len(line), 4096)
            self.assertIsNotNone(re.fullmatch(r"(decide|least X) .*", line))


if __name__ == "__main__":
    unittest.main()
