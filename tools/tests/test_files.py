"""Each form of file is read, and a wrong file is refused with its line."""

from __future__ import annotations

import importlib.util
import tempfile
import unittest
from collections.abc import Callable
from pathlib import Path
from typing import Optional

from mso_tools.code_files import Role, read_code
from mso_tools.errors import Exit, ToolError
from mso_tools.graph_files import Network, read_network
from mso_tools.matroid import Labels, Matroid

from .support import FILES, digits


class FileTest(unittest.TestCase):
    """Writes files of its own."""

    def setUp(self) -> None:
        folder = tempfile.TemporaryDirectory()
        self.addCleanup(folder.cleanup)
        self.folder = Path(folder.name)

    def written(self, name: str, text: str) -> str:
        path = self.folder / name
        path.write_text(text, encoding="utf-8")
        return str(path)

    def network(self, name: str, text: str, weight: Optional[str] = None) -> Network:
        return read_network(self.written(name, text), None, weight)

    def code(self, text: str, order: Optional[int] = None, role: Optional[Role] = None) -> Matroid:
        return read_code(self.written("code.txt", text), order, role).matroid

    def check_refused(self, read: Callable[[], object], line: Optional[int], words: str) -> None:
        """The refusal names the line, and says what is wrong."""
        with self.assertRaises(ToolError) as caught:
            read()
        self.assertEqual(caught.exception.code, Exit.REFUSED)
        message = str(caught.exception)
        self.assertIn(words, message)
        if line is not None:
            self.assertIn(f":{line}: ", message)


class NetworkFilesTest(FileTest):
    def test_edge_list(self) -> None:
        network = self.network("n.edges", "# a comment\na b\n\nb c 2.5\na b 1\n")
        self.assertEqual(network.labels(), ["a-b", "b-c", "a-b#2"])
        matroid = network.matroid(2)
        self.assertEqual(matroid.rows, digits("101", "111", "010"))
        self.assertEqual((matroid.weights.whole, matroid.weights.scale), ([10, 25, 10], 10))
        self.assertEqual(matroid.weights.shown(35), "3.5")

    def test_signs(self) -> None:
        matroid = self.network("n.edges", "a b\nb c\n").matroid(5)
        self.assertEqual(matroid.rows, digits("10", "41", "04"))
        self.assertEqual(self.network("n.edges", "a b\nc c\n").matroid(3).rows, digits("10", "20", "00"))

    def test_csv(self) -> None:
        text = "Name,From,To,Cost,Capacity\nfirst,a,b,3,10\n,b,c,4,20\n"
        network = self.network("n.csv", text)
        self.assertEqual(network.labels(), ["first", "b-c"])
        self.assertEqual(network.matroid(2).weights.whole, [3, 4])
        self.assertEqual(self.network("n.csv", text, "capacity").matroid(2).weights.whole, [10, 20])

    def test_dimacs(self) -> None:
        network = self.network("n.col", "c a triangle\np edge 3 3\ne 1 2\ne 2 3\ne 1 3\n")
        self.assertEqual(network.labels(), ["1-2", "2-3", "1-3"])
        network = self.network("n.gr", "p sp 3 4\na 1 2 7\na 2 1 7\na 2 3 5\na 3 2 6\n")
        self.assertEqual(network.matroid(2).weights.whole, [7, 5, 6])
        self.assertEqual(self.network("n.gr", "p tw 3 2\n1 2\n2 3\n").labels(), ["1-2", "2-3"])

    @unittest.skipUnless(importlib.util.find_spec("networkx"), "networkx is not there")
    def test_graphml(self) -> None:
        network = read_network(str(FILES / "house.graphml"), None, None)
        self.assertEqual(len(network.edges), 6)
        self.assertEqual(network.matroid(2).weights.whole, [4, 3, 3, 3, 2, 2])
        self.check_refused(lambda: self.network("n.graphml", "<graphml>\n<graph>\n</graphml>"), 3, "no GraphML")

    def test_wrong_networks(self) -> None:
        for name, text, line, words in (
            ("n.edges", "a b\na b c d\n", 2, "4 words"),
            ("n.edges", "a b 1\n\n# x\nb c heavy\n", 4, "`heavy` is no weight"),
            ("n.edges", "a b nan\n", 1, "no weight"),
            ("n.csv", "from,weight\na,b\n", 1, "head of a link"),
            ("n.csv", "from,to,weight\na,b,1\na,b\n", 3, "2 fields"),
            ("n.csv", "from,to,weight\na,,1\n", 2, "an end of the link is empty"),
            ("n.csv", "from,to,weight\na,b,\n", 2, "no weight"),
            ("n.col", "p edge 3 2\ne 1 2\n", 1, "2 links are announced, 1 follow"),
            ("n.col", "p edge 3\n", 1, "p KIND"),
            ("n.col", "e 1 2\n", None, "no line `p`"),
            ("n.col", "p edge 2 1\nf 1 2\n", 2, "begins no line"),
        ):
            with self.subTest(text=text):
                self.check_refused(lambda: self.network(name, text), line, words)

    def test_wrong_sizes(self) -> None:
        self.check_refused(lambda: self.network("n.edges", "# none\n").matroid(2), None, "no element")
        many = "".join(f"a{k} b\n" for k in range(4097))
        self.check_refused(lambda: self.network("n.edges", many).matroid(2), None, "4097 elements")
        wide = "".join(f"a{k} b{k}\n" for k in range(2100))
        self.assertEqual(len(self.network("n.edges", wide).matroid(2).rows), 2100)
        self.check_refused(lambda: self.network("n.edges", "a b 1\na b 2e12\n").matroid(2), 2, "does not fit")
        self.check_refused(lambda: self.network("n.edges", "a b 1e11\na b 0.001\n").matroid(2), 1, "does not fit")

    def test_no_file(self) -> None:
        self.check_refused(lambda: read_network(str(self.folder / "none.edges"), None, None), None, "cannot be read")


class CodeFilesTest(FileTest):
    def test_digits(self) -> None:
        matroid = self.code("# Hamming\n1 0 0 1 1 0 1\n0101011\n0,0,1,0,1,1,1\n")
        self.assertEqual(matroid.rows, digits("1001101", "0101011", "0010111"))
        self.assertEqual(matroid.labels.labels, ["1", "2", "3", "4", "5", "6", "7"])
        self.assertEqual(matroid.labels.names[0], "b1")

    def test_words_before_the_digits(self) -> None:
        matroid = self.code("field 3\nnames a b c\nweights 1 0.5 -2\n120\n")
        self.assertEqual((matroid.order, matroid.labels.names, matroid.weights.whole), (3, ["a", "b", "c"], [10, 5, -20]))
        self.assertEqual(self.code("012\n", 3).order, 3)

    def test_generators_become_parity_checks(self) -> None:
        path = self.written("code.txt", "111\n")
        code = read_code(path, None, Role.GENERATOR)
        self.assertEqual(code.by_parity_checks().rows, digits("110", "101"))

    def test_alist(self) -> None:
        text = "4 2\n1 2\n1 1 1 1\n2 2\n1\n1\n2\n2\n1 2\n3 4\n"
        self.assertEqual(self.code(text).rows, digits("1100", "0011"))
        filled = "3 2\n2 2\n1 2 1\n2 2\n1 0\n1 2\n2 0\n1 2\n2 3\n"
        self.assertEqual(self.code(filled).rows, digits("110", "011"))

    def test_convolutional(self) -> None:
        matroid = self.code("generators 5 7\nlength 2\n")
        self.assertEqual(matroid.rows, digits("11011100", "00110111"))

    def test_wrong_codes(self) -> None:
        for text, line, words in (
            ("", None, "no row"),
            ("101\n10\n", 2, "2 digits"),
            ("101\n102\n", 2, "`2` is no digit of GF(2)"),
            ("field 6\n101\n", 1, "field 2"),
            ("field 3\n", None, "no row of digits"),
            ("names a b\n101\n", 1, "2 names for 3"),
            ("names a b a\n101\n", 1, "`a` stands twice"),
            ("names a b c\nnames a b c\n101\n", 2, "a second line `names`"),
            ("weights 1 2\n101\n", 1, "2 weights"),
            ("weights 1 x 2\n101\n", 1, "`x` is no weight"),
            ("4 2\n1 2\n1 1 1 1\n2 2\n1\n1\n2\n3\n1 2\n3 4\n", 8, "no place from 1 to 2"),
            ("4 2\n1 2\n1 1 1 2\n2 2\n1\n1\n2\n2\n1 2\n3 4\n", 3, "column 4 has weight 2"),
            ("4 2\n1 2\n1 1 1 1\n2 2\n1\n1\n2\n2\n1 3\n2 4\n", 9, "not what the lists of the columns say"),
            ("4 2\n1 2\n1 1 1 1\n2 2\n1\n1\n2\n", 7, "need 10"),
            ("generators 5 9\nlength 3\n", 1, "`9` is no octal number"),
            ("generators 5\nlength 3\n", 1, "two octal numbers"),
            ("generators 5 7\nlength 0\n", 2, "length BITS"),
            ("generators 5 7\n", 1, "length BITS"),
        ):
            with self.subTest(text=text):
                self.check_refused(lambda: self.code(text), line, words)

    def test_field_of_the_command_and_the_file(self) -> None:
        self.check_refused(lambda: self.code("field 3\n012\n", 5), 1, "the file says GF(3)")


class LabelsTest(unittest.TestCase):
    def test_names_of_labels(self) -> None:
        self.assertEqual(Labels.of(["Rome-Bari", "b"], "e").names, ["rome_bari", "b"])
        self.assertEqual(Labels.of(["a-b", "a b"], "e").names, ["e1", "e2"])
        self.assertEqual(Labels.of(["1-2", "b"], "e").names, ["e1", "e2"])
        self.assertEqual(Labels.of(["a-label-of-many-letters"], "e").names, ["e1"])
        self.assertEqual(Labels.of(["é", "b"], "e").table(), "e1\té\ne2\tb\n")


if __name__ == "__main__":
    unittest.main()
