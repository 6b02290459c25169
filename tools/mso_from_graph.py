#!/usr/bin/env python3
"""From a network's file to a text for `mso build`, or to a whole job."""

from __future__ import annotations

import argparse
import sys

from mso_tools.bounds import contraction_bound
from mso_tools.command_line import add_output_options, add_program_option, add_search_options, parser, run, write_text
from mso_tools.errors import Exit
from mso_tools.fields import ORDERS
from mso_tools.graph_files import KINDS, read_network

DESCRIPTION = """Writes the cycle matroid of a network, with a tree of small width, as a text for `mso build`.

Elements are links. Circuits are the cycles, bases the spanning forests, cocircuits (of the dual) the smallest cuts.
FILE is an edge list (`u v [weight]`, a link a line, # for comments), CSV with a header (source, target, weight, name),
DIMACS (p, e or a lines) or GraphML (needs networkx)."""


def _words() -> argparse.ArgumentParser:
    words = parser(DESCRIPTION)
    words.add_argument("file", metavar="FILE")
    words.add_argument("--format", choices=KINDS, help="the form of the file (default: by its suffix, else an edge list)")
    words.add_argument("--field", type=int, choices=ORDERS, default=2, help="the field; with signs where it is not GF(2) (2)")
    words.add_argument("--weight", metavar="COLUMN", help="the CSV column or GraphML attribute with the weights")
    add_output_options(words)
    add_program_option(words)
    add_search_options(words)
    return words


def _write(chosen: argparse.Namespace) -> Exit:
    network = read_network(chosen.file, chosen.format, chosen.weight)
    matroid = network.matroid(chosen.field)
    note = f"{len(network.edges)} links between {len(network.vertices)} vertices, over GF({chosen.field})"
    return write_text(matroid, chosen, note, contraction_bound(network.ends()))


def main() -> int:
    """Reads the words and gives the exit code."""
    chosen = _words().parse_args()
    return run(lambda: _write(chosen))


if __name__ == "__main__":
    sys.exit(main())
