"""What goes wrong, and the exit code that a script sees."""

from __future__ import annotations

from enum import IntEnum
from typing import Optional


class Exit(IntEnum):
    """Exit codes of the programs in this folder."""

    DONE = 0
    """The text was written, the question answered, the picture drawn."""
    REFUSED = 1
    """The file is wrong (the message names its line), or the question does not fit it."""
    USAGE = 2
    """The words of the command line are wrong."""
    TOO_WIDE = 3
    """No tree was found that `mso` takes."""
    PROGRAM_REFUSED = 4
    """`mso` refused the text or the question; its words are in the message."""
    MISSING = 5
    """A program or package that is needed is not there; the message says how to get it."""


class ToolError(Exception):
    """An end of a program with a message and an exit code."""

    def __init__(self, code: Exit, message: str) -> None:
        super().__init__(message)
        self.code = code


def refused(path: str, line: Optional[int], message: str) -> ToolError:
    """A fault of a file, at a line where there is one."""
    place = path if line is None else f"{path}:{line}"
    return ToolError(Exit.REFUSED, f"{place}: {message}")


def missing(what: str, remedy: str) -> ToolError:
    """Something that is not installed, and how to get it."""
    return ToolError(Exit.MISSING, f"{what} is missing. {remedy}")
