"""The pages' commands, run as written: each answer is the page's, but for the time."""

from __future__ import annotations

import re
import shutil
import subprocess
import unittest
from collections.abc import Iterator
from pathlib import Path

from .support import TOP, needs_mso

PAGES = ("GALLERY.md", "MANY_JOBS.md")
_BLOCK = re.compile(r"^```\n(\$ .*?)^```$", re.MULTILINE | re.DOTALL)


def commands(page: Path) -> Iterator[tuple[str, list[str]]]:
    """Each line that begins with `$ `, and the lines below it up to the next one."""
    for block in _BLOCK.findall(page.read_text(encoding="utf-8")):
        for entry in re.split(r"^\$ ", block, flags=re.MULTILINE)[1:]:
            line, *answer = entry.splitlines()
            yield line, answer


def without_time(lines: list[str]) -> list[str]:
    """The lines but for those that tell the time."""
    return [line for line in lines if not line.startswith("time: ")]


@needs_mso
class PagesTest(unittest.TestCase):
    def test_every_command_answers_as_the_page_says(self) -> None:
        for page in PAGES:
            for line, answer in commands(TOP / "docs" / page):
                if "mso_draw.py" in line and shutil.which("dot") is None:
                    continue
                with self.subTest(page=page, line=line):
                    done = subprocess.run(["bash", "-c", line], cwd=TOP, capture_output=True, text=True, check=False)
                    self.assertEqual(done.returncode, 0, done.stderr)
                    self.assertEqual(without_time(done.stdout.splitlines()), without_time(answer))

    def test_pictures_are_there(self) -> None:
        page = TOP / "docs" / "GALLERY.md"
        pictures = re.findall(r"!\[[^]]*\]\((.*?)\)", page.read_text(encoding="utf-8"))
        self.assertGreaterEqual(len(pictures), 4)
        for picture in pictures:
            self.assertTrue((page.parent / picture).is_file(), picture)


if __name__ == "__main__":
    unittest.main()
