#!/usr/bin/env python3
"""Pictures: the tree of a job, and a network with the links of an answer marked."""

from __future__ import annotations

import argparse
import sys
from typing import Optional

from mso_tools.command_line import EXIT_CODES, parser, run
from mso_tools.errors import Exit, ToolError, refused
from mso_tools.graph_files import KINDS, read_lines, read_network
from mso_tools.job_files import read_job
from mso_tools.pictures import network_picture, tree_picture, unknown_marks, write_picture

DESCRIPTION = """Draws by Graphviz (apt-get install graphviz): the suffix of the output says what is written, .svg or .png;
.dot writes the Graphviz text and needs nothing.

  mso_draw.py tree JOB -o FILE       the tree of a job (or of what mso build wrote) with boundaries, operators, elements
  mso_draw.py network FILE -o FILE   a network, with the links of an answer marked"""


def _words() -> argparse.ArgumentParser:
    words = parser(DESCRIPTION)
    kinds = words.add_subparsers(dest="what", required=True, metavar="tree|network")
    tree = kinds.add_parser("tree", help="the tree of a job", epilog=EXIT_CODES)
    tree.add_argument("file", metavar="JOB")
    tree.add_argument("--names", metavar="TABLE", help="the table that --names of the other programs wrote: the user's names")
    tree.add_argument("--set", metavar="NAME,..", default="", help="mark these elements; each join shows their boundary space")
    tree.add_argument("--node", metavar="LEAF:K", help="show the boundary columns at the node K joins above a leaf")
    network = kinds.add_parser("network", help="a network", epilog=EXIT_CODES)
    network.add_argument("file", metavar="FILE")
    network.add_argument("--format", choices=KINDS, help="the form of the file")
    network.add_argument("--weight", metavar="COLUMN", help="the column or attribute with the weights")
    network.add_argument("--turn", type=int, metavar="DEGREES", help="turn the picture so that the first link has this angle")
    network.add_argument("--mark", metavar="NAME", nargs="+", default=[], help="links to mark")
    network.add_argument("--answer", metavar="PATH", help="what `mso_ask.py --line` wrote, - for standard input: its last line is marked")
    for kind in (tree, network):
        kind.add_argument("-o", "--output", metavar="PATH", required=True, help="the picture: .svg, .png or .dot")
    return words


def _draw_tree(chosen: argparse.Namespace) -> Exit:
    job = read_job(chosen.file)
    names = {name for node in job.nodes for name in [getattr(node, "name", None)] if name}
    marked = {name for name in chosen.set.split(",") if name}
    if marked - names:
        raise ToolError(Exit.REFUSED, f"{chosen.file}: there is no element `{min(marked - names)}`")
    interest = None
    if chosen.node is not None:
        leaf, _, steps = chosen.node.partition(":")
        interest = job.place_of(leaf, int(steps)) if steps.isdecimal() else None
        if interest is None:
            raise ToolError(Exit.REFUSED, f"--node {chosen.node}: there is no such node; LEAF:0 is a leaf, LEAF:1 the join above it")
    write_picture(tree_picture(job, _table(chosen.names), marked, interest), chosen.output)
    return Exit.DONE


def _table(path: Optional[str]) -> dict[str, str]:
    """The user's names by the names of the text."""
    if path is None:
        return {}
    table = {}
    for number, line in read_lines(path):
        name, tab, label = line.partition("\t")
        if not tab:
            raise refused(path, number, "a line is a name, a tab and a label")
        table[name] = label
    return table


def _draw_network(chosen: argparse.Namespace) -> Exit:
    network = read_network(chosen.file, chosen.format, chosen.weight)
    marked = [*chosen.mark, *_answer(chosen.answer)]
    unknown = unknown_marks(network, marked)
    if unknown:
        raise ToolError(Exit.REFUSED, f"{chosen.file}: there is no link `{unknown[0]}`")
    write_picture(network_picture(network, set(marked), chosen.turn), chosen.output)
    return Exit.DONE


def _answer(path: Optional[str]) -> list[str]:
    """The names of the last line of an answer."""
    if path is None:
        return []
    lines = sys.stdin.read().splitlines() if path == "-" else [line for _, line in read_lines(path)]
    if not lines:
        raise refused(path, None, "there is no answer in it")
    return lines[-1].split("\t")[1:]


def main() -> int:
    """Reads the words and gives the exit code."""
    chosen = _words().parse_args()
    return run(lambda: _draw_tree(chosen) if chosen.what == "tree" else _draw_network(chosen))


if __name__ == "__main__":
    sys.exit(main())
