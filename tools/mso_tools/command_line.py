"""What the commands share: options of the search, the progress line, and how a command ends."""

from __future__ import annotations

import argparse
import os
import shutil
import sys
from collections.abc import Callable
from pathlib import Path

from mso_tree_search import Found, Options, Strategy, WIDTH_LIMIT, find_tree

from .errors import Exit, ToolError
from .fields import field
from .matroid import Matroid
from .program import Program
from .shrink import shrunk
from .texts import build_text, job_text
from .trees import DEPTH_LIMIT

EXIT_CODES = """exit codes: 0 done; 1 the file is wrong (the message names its line) or the question does not fit it;
2 wrong words; 3 no tree was found that mso takes; 4 mso refused the text or the question; 5 something is not installed"""


def parser(description: str) -> argparse.ArgumentParser:
    """A parser that tells the exit codes below its help."""
    return argparse.ArgumentParser(
        description=description, epilog=EXIT_CODES, formatter_class=argparse.RawDescriptionHelpFormatter
    )


def add_search_options(words: argparse.ArgumentParser) -> None:
    """The options of the search for a tree."""
    group = words.add_argument_group("search for a tree")
    group.add_argument("--seconds", type=_positive, default=5.0, metavar="S", help="time for local search (5)")
    group.add_argument("--seed", type=int, default=1, metavar="N", help="seed of the random choices (1)")
    group.add_argument("--width", type=int, default=1, metavar="W", help="stop where a tree of this width is found (1)")
    group.add_argument("--shrink", action="store_true", help="where no tree fits, look for elements to take out (slow)")
    ways = group.add_mutually_exclusive_group()
    ways.add_argument(
        "--given", dest="strategy", action="store_const", const=Strategy.GIVEN, default=Strategy.SEARCH,
        help="only the given order: at once; best for convolutional codes in their own order",
    )
    ways.add_argument(
        "--path", dest="strategy", action="store_const", const=Strategy.PATH, help="a caterpillar in the given order"
    )


def _positive(text: str) -> float:
    value = float(text)
    if not 0 < value < float("inf"):
        raise argparse.ArgumentTypeError("a number above 0 is needed")
    return value


def add_program_option(words: argparse.ArgumentParser) -> None:
    """Where `mso` lies."""
    words.add_argument("--mso", metavar="PATH", help="the program (default: mso on PATH, else the one built in this checkout)")


def add_output_options(words: argparse.ArgumentParser) -> None:
    """What is written of a file."""
    words.add_argument("--names", metavar="PATH", help="write a table of the names in the text and the user's own")
    words.add_argument("--job", metavar="QUESTION", help="write a job with this query line, such as 'least X not ind(X)'")
    words.add_argument("--dual", action="store_true", help="with --job: a job of the dual matroid")
    words.add_argument("--force", action="store_true", help="write the text also where the tree is too wide")


class Progress:
    """One line on the terminal that is written over; nothing where standard error is no terminal."""

    def __init__(self) -> None:
        self._shown = sys.stderr.isatty()

    def show(self, text: str) -> None:
        """Writes over the line."""
        if self._shown:
            width = shutil.get_terminal_size().columns
            sys.stderr.write("\r" + text[: width - 1].ljust(width - 1))
            sys.stderr.flush()

    def clear(self) -> None:
        """Leaves an empty line."""
        if self._shown:
            sys.stderr.write("\r\x1b[K")
            sys.stderr.flush()


def search(matroid: Matroid, chosen: argparse.Namespace, bound: int, force: bool) -> Found:
    """A tree for the matroid, by the options of the command line. `bound` is a width that no tree goes below (0 says nothing).

    Ends with advice where `mso` does not take the tree, unless `force` is set.
    """
    if bound > WIDTH_LIMIT and not force:
        raise ToolError(Exit.TOO_WIDE, "\n".join([f"No tree is narrower than {bound}: mso takes {WIDTH_LIMIT} at most.", *_WHAT_HELPS]))
    progress = Progress()
    options = Options(
        seconds=chosen.seconds, seed=chosen.seed, strategy=chosen.strategy, wanted=max(chosen.width, bound), report=progress.show
    )
    try:
        found = find_tree(matroid.order, matroid.rows, matroid.count, options)
    finally:
        progress.clear()
    if not found.fits and not force:
        raise ToolError(Exit.TOO_WIDE, "\n".join(_advice(found, matroid, chosen.shrink)))
    return found


def told(found: Found) -> str:
    """What was found, in a line."""
    nodes_word = "node" if found.widths.widest == 1 else "nodes"
    return f"width {found.width} ({found.widths.widest} {nodes_word}), depth {found.depth}, found in {found.seconds:.1f} s"


def _advice(found: Found, matroid: Matroid, shrink: bool) -> list[str]:
    """What to say of a tree that is too wide or too deep for `mso`."""
    if found.depth > DEPTH_LIMIT:
        return [f"{told(found)}: mso takes a depth of {DEPTH_LIMIT} at most. Try another --seed."]
    below, outside = found.two_sides()
    few = ", ".join(matroid.labels.labels[element] for element in below[:4])
    return [
        f"{told(found)}: mso takes {WIDTH_LIMIT} at most.",
        f"The widest node separates {len(below)} elements ({few}{', ..' if len(below) > 4 else ''}) from {outside}.",
        *(_removals(found, matroid) if shrink else ["More time may help: --seconds 60, another --seed. So may --shrink."]),
        *_WHAT_HELPS,
    ]


def _removals(found: Found, matroid: Matroid) -> list[str]:
    """Elements without which a tree fits, and what the answer is then."""
    removals = shrunk(field(matroid.order), matroid.rows, found.tree, matroid.count, WIDTH_LIMIT, _SHRINK_SECONDS)
    if removals is None:
        return ["No few elements were found without which it fits."]
    words = [
        f"{'contracting' if removal.contracted else 'deleting'} {matroid.labels.labels[removal.element]}" for removal in removals
    ]
    return [
        f"It fits after {', '.join(words)}.",
        "A minor answers for some sets alone: where elements are deleted, for the circuits (cycles, codewords) that avoid them;",
        "where they are contracted, for the cocircuits (cuts) that avoid them.",
    ]


_SHRINK_SECONDS = 0.5

_WHAT_HELPS = (
    "What else helps: take out elements that cannot matter to the question. Of parallel elements (between the same two vertices)",
    "the lightest alone matters for trees, and for cycles of more than two; for cuts make them one element with the sum of the",
    "weights. In series (a chain of vertices of degree 2) it is the other way round. A part that hangs on the rest by two vertices",
    "(a 2-sum) can be answered by itself and put back as one element. Each element that is deleted or contracted lowers every",
    "boundary by at most 1; the answer is then that of the sets that avoid it.",
    "What does not help: the dual, other rows of the same row space, another field with the same matroid.",
)


def write_text(matroid: Matroid, chosen: argparse.Namespace, note: str, bound: int) -> Exit:
    """Searches a tree and writes the text for `mso build`, or the job, on standard output; how wide it is on standard error."""
    program = None
    if chosen.job is not None:
        program = Program.find(chosen.mso)
        program.check_question(chosen.job)
    found = search(matroid, chosen, bound, chosen.force)
    text = build_text(matroid, found.tree, [note, told(found)])
    if program is not None:
        header = program.output(["build"], text)
        text = job_text(program.output(["dual"], header) if chosen.dual else header, chosen.job)
    if chosen.names is not None:
        write_file(chosen.names, matroid.labels.table())
    sys.stdout.write(text)
    print(told(found), file=sys.stderr)
    return Exit.DONE


def write_file(path: str, text: str) -> None:
    """Writes a file; a fault names it."""
    try:
        Path(path).write_text(text, encoding="utf-8")
    except OSError as fault:
        raise ToolError(Exit.REFUSED, f"{path}: cannot be written: {fault}") from None


def run(command: Callable[[], Exit]) -> int:
    """Runs a command, and gives its exit code; a fault is one message on standard error."""
    try:
        return int(command())
    except ToolError as fault:
        print(fault, file=sys.stderr)
        return int(fault.code)
    except BrokenPipeError:
        os.dup2(os.open(os.devnull, os.O_WRONLY), sys.stdout.fileno())
        return int(Exit.DONE)
    except KeyboardInterrupt:
        print("stopped", file=sys.stderr)
        return 130
