"""Jobs read back, boundary spaces, and the Graphviz texts."""

from __future__ import annotations

import shutil
import tempfile
import unittest
from pathlib import Path

from mso_tools.errors import Exit
from mso_tools.graph_files import read_network
from mso_tools.job_files import read_job
from mso_tools.pictures import network_picture, quoted, space_text, tree_picture

from .support import FILES, TOP, command, digits

FANO = str(TOP / "examples" / "fano.mso")

SECOND_FORMAT = """mso 2
field 3
elements a b c
row 101
row 121
op j 1 1 2 0 10 01 12/01
op k 2 1 0 2 10/01 11 .
tree
elem a 1 5
elem b 2 5
join j
elem c 1 5
join k
end
"""


class JobsTest(unittest.TestCase):
    def test_columns_and_places(self) -> None:
        job = read_job(FANO)
        place = job.place_of("d", 1)
        self.assertIsNotNone(place)
        self.assertEqual(job.columns()[place], {"a": b"\1\0\0", "b": b"\0\1\0", "c": b"\0\0\1", "d": b"\1\1\0"})
        self.assertIsNone(job.place_of("g", 2))
        self.assertIsNone(job.place_of("h", 0))

    def test_spaces(self) -> None:
        job = read_job(FANO)
        line = job.spaces({"a", "b", "d"})
        self.assertEqual(space_text(line[job.place_of("c", 1)]), "100 / 010")
        self.assertEqual(space_text(line[job.place_of("d", 1)]), "dependent")
        self.assertEqual(space_text(job.spaces({"a", "b", "e"})[-1]), "zero")

    def test_third_boundary_of_the_second_format(self) -> None:
        with tempfile.TemporaryDirectory() as folder:
            path = Path(folder) / "job.mso"
            path.write_text(SECOND_FORMAT)
            job = read_job(str(path))
        columns = job.columns()[job.place_of("a", 1)]
        self.assertEqual([columns["a"], columns["b"]], digits("11", "02"))

    def test_wrong_jobs(self) -> None:
        done = command("mso_draw.py", "tree", FILES / "abilene.csv", "-o", "/dev/null")
        self.assertEqual(done.returncode, Exit.REFUSED)
        done = command("mso_draw.py", "tree", FANO, "--set", "a,z", "-o", "/dev/null")
        self.assertIn("there is no element `z`", done.stderr)
        done = command("mso_draw.py", "tree", FANO, "--node", "a:9", "-o", "/dev/null")
        self.assertIn("there is no such node", done.stderr)


class PicturesTest(unittest.TestCase):
    def test_tree(self) -> None:
        job = read_job(FANO)
        text = tree_picture(job, {"a": "first point"}, {"a"}, job.place_of("b", 1))
        self.assertEqual(text.count(" -- n"), 12 + 1)
        self.assertIn("first point", text)
        self.assertIn("chosen: 100", text)

    def test_network(self) -> None:
        network = read_network(str(FILES / "abilene.csv"), None, None)
        text = network_picture(network, {"indy-chicago"}, None)
        self.assertEqual(text.count("penwidth=3"), 1)
        self.assertEqual(text.count(" -- "), 14)

    def test_quotes(self) -> None:
        self.assertEqual(quoted('a "b" \\ c'), '"a \\"b\\" \\\\ c"')

    def test_marks_of_an_answer(self) -> None:
        with tempfile.TemporaryDirectory() as folder:
            answer, picture = Path(folder) / "answer", Path(folder) / "picture.dot"
            answer.write_text("1\tseattle-denver\n5.9\tindy-chicago\tny-dc\n")
            words = ("network", FILES / "abilene.csv", "--answer", answer, "-o", picture)
            self.assertEqual(command("mso_draw.py", *words).returncode, 0)
            self.assertEqual(picture.read_text().count("penwidth=3"), 2)
            done = command("mso_draw.py", "network", FILES / "abilene.csv", "--mark", "nowhere", "-o", picture)
            self.assertIn("there is no link `nowhere`", done.stderr)

    @unittest.skipUnless(shutil.which("dot"), "Graphviz is not there")
    def test_svg_and_png(self) -> None:
        with tempfile.TemporaryDirectory() as folder:
            for suffix, begin in ((".svg", b"<?xml"), (".png", b"\x89PNG")):
                picture = Path(folder) / f"picture{suffix}"
                done = command("mso_draw.py", "tree", FANO, "-o", picture)
                self.assertEqual(done.returncode, 0, done.stderr)
                self.assertTrue(picture.read_bytes().startswith(begin))

    def test_other_suffix(self) -> None:
        self.assertEqual(command("mso_draw.py", "tree", FANO, "-o", "picture.gif").returncode, Exit.USAGE)


if __name__ == "__main__":
    unittest.main()
