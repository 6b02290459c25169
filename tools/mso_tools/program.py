"""The program `mso`, called with a text and words."""

from __future__ import annotations

import os
import shutil
import subprocess
from dataclasses import dataclass
from pathlib import Path
from typing import Optional

from .errors import Exit, ToolError, missing

_BUILT = Path(__file__).resolve().parents[2] / "crates" / "mso" / "out" / "mso"
_REMEDY = "Build it at the top of the checkout by (cd crates/mso && rt run -- run < ../../examples/circuit.mso), or give --mso PATH."


@dataclass(frozen=True)
class Program:
    """Where the program lies."""

    path: str

    @classmethod
    def find(cls, path: Optional[str]) -> "Program":
        """The program at a path; without one that on PATH, else the one that this checkout built."""
        wanted = path or shutil.which("mso") or str(_BUILT)
        if not (os.path.isfile(wanted) and os.access(wanted, os.X_OK)):
            raise missing(f"the program mso ({wanted})", _REMEDY)
        return cls(wanted)

    def output(self, words: list[str], text: str) -> str:
        """What the program writes for a text; a refusal or a fault ends with its words in the message."""
        done = subprocess.run([self.path, *words], input=text.encode(), stdout=subprocess.PIPE, check=False)
        output = done.stdout.decode()
        if done.returncode != 0:
            said = output.strip() or f"status {done.returncode}"
            raise ToolError(Exit.PROGRAM_REFUSED, f"mso {' '.join(words)}: {said}{_help_for(said)}")
        return output

    def check_question(self, question: str) -> None:
        """Ends as `output` does where a query line is none, by a job of one element."""
        if "\n" in question:
            raise ToolError(Exit.USAGE, "the question is one line")
        self.output(["run"], f"{_ONE_ELEMENT}{question}\n")


_ONE_ELEMENT = "mso 1\nfield 2\nelements a\nrow 1\ntree\nelem a 1 1\nend\n"


def _help_for(said: str) -> str:
    """What a user can do about some refusals."""
    for word, advice in _ADVICE.items():
        if said.startswith(f"refused {word}"):
            return f"\n{advice}"
    return ""


_ADVICE = {
    "states": "The question needs more states than the limit allows on this tree: a narrower tree (--seconds 60), or a simpler question.",
    "width": "The tree is wider than 6.",
    "usage": "This mso does not know the command: it is older than these tools.",
    "not-built": "This mso does not answer such questions yet: it is older than these tools.",
}
