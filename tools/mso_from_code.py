#!/usr/bin/env python3
"""From a code's file to a text for `mso build`, or to a whole job."""

from __future__ import annotations

import argparse
import sys

from mso_tools.code_files import Role, read_code
from mso_tools.command_line import add_output_options, add_program_option, add_search_options, parser, run, write_text
from mso_tools.errors import Exit
from mso_tools.fields import ORDERS

DESCRIPTION = """Writes the matroid of a code's parity checks, with a tree of small width, as a text for `mso build`.

Elements are positions of the code. Circuits are the smallest supports of codewords, so `least X not ind(X)` asks for a
lightest codeword. FILE is rows of digits (before them, if wanted: `field Q`, `names ..`, `weights ..`), MacKay's alist, or a
convolutional code: a line `generators 5 7` (octal) and a line `length 20` (information bits; the code is terminated)."""


def _words() -> argparse.ArgumentParser:
    words = parser(DESCRIPTION)
    words.add_argument("file", metavar="FILE")
    roles = words.add_mutually_exclusive_group()
    roles.add_argument(
        "--parity-check", dest="role", action="store_const", const=Role.PARITY_CHECK, help="the rows are parity checks (default)"
    )
    roles.add_argument(
        "--generator", dest="role", action="store_const", const=Role.GENERATOR,
        help="the rows generate the code: parity checks are computed of them",
    )
    words.add_argument("--field", type=int, choices=ORDERS, help="the field (default: what the file says, else 2)")
    add_output_options(words)
    add_program_option(words)
    add_search_options(words)
    return words


def _write(chosen: argparse.Namespace) -> Exit:
    matroid = read_code(chosen.file, chosen.field, chosen.role).by_parity_checks()
    note = f"{matroid.count} positions, {len(matroid.rows)} parity checks over GF({matroid.order})"
    return write_text(matroid, chosen, note, 0)


def main() -> int:
    """Reads the words and gives the exit code."""
    chosen = _words().parse_args()
    return run(lambda: _write(chosen))


if __name__ == "__main__":
    sys.exit(main())
