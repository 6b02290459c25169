#!/usr/bin/env python3
"""From a file to an answer: reads a network, a code or a matrix, finds a tree, and asks `mso`."""

from __future__ import annotations

import argparse
import sys
import time
from collections.abc import Iterator, Sequence
from dataclasses import dataclass, replace
from typing import Optional, Union

from mso_tools.answers import lightest_set, shown
from mso_tools.code_files import Role
from mso_tools.command_line import add_program_option, add_search_options, parser, run, search, write_file
from mso_tools.errors import Exit, ToolError
from mso_tools.fields import ORDERS
from mso_tools.graph_files import KINDS
from mso_tools.matroid import Weights
from mso_tools.program import Program
from mso_tools.questions import (
    LIGHTEST, MINORS, PROPERTIES, Decide, Least, lightest, lightest_between, minor_named, more_than_all, property_named,
)
from mso_tools.sources import Change, Source, code_source, is_network_file, network_source, read_change
from mso_tools.texts import build_text, job_text
from mso_tree_search import Found

DESCRIPTION = """Answers one question about a network, a code or a matrix in a file, in the names and units of the file.

Networks (.edges, .csv, .graphml, .dimacs, .col, .gr, .max, or --as network): --lightest cut, cycle, tree, and with
--between A B also path. Codes and matrices (every other file, or --as code): --lightest codeword, dual-codeword, circuit,
cocircuit, basis. The tree that is found is checked by mso against the matrix; nothing else of it is used for the answer."""

_NETWORK_WORDS = ("cut", "cycle", "tree", "path")
_CODE_WORDS = ("codeword", "dual-codeword")

Question = Union[Least, Decide]


def _words() -> argparse.ArgumentParser:
    words = parser(DESCRIPTION)
    words.add_argument("file", metavar="FILE")
    asked = words.add_argument_group("the question (one of these)").add_mutually_exclusive_group(required=True)
    asked.add_argument("--lightest", choices=tuple(LIGHTEST), help="a set of the least weight")
    asked.add_argument("--is", dest="property", choices=PROPERTIES, help="does the matroid have this property?")
    asked.add_argument("--minor", metavar="NAME", help=f"has the matroid this minor? {', '.join(MINORS)}")
    asked.add_argument("--formula", metavar="QUERY", help="a query line: 'decide F' or 'least X F'")
    words.add_argument("--between", nargs=2, metavar=("A", "B"), help="with --lightest path or cut: between these vertices")
    words.add_argument("--dual", action="store_true", help="ask --is, --minor or --formula of the dual matroid")
    words.add_argument(
        "--then", action="append", default=[], metavar="NAME=WEIGHT",
        help="answer again after this change of weight; NAME=fails takes the element out (may be repeated)",
    )
    words.add_argument("--line", action="store_true", help="each answer as one line: the weight and the names, with tabs between them")
    read = words.add_argument_group("how the file is read")
    read.add_argument("--as", dest="kind", choices=("network", "code"), help="what the file holds")
    read.add_argument("--format", choices=KINDS, help="the form of a network's file")
    read.add_argument("--weight", metavar="COLUMN", help="the column or attribute with the weights of a network")
    read.add_argument("--field", type=int, choices=ORDERS, help="the field (2, or what the file says)")
    read.add_argument("--generator", action="store_true", help="the rows generate the code (without it they are parity checks)")
    add_program_option(words)
    add_search_options(words)
    return words


def _checked(words: argparse.ArgumentParser) -> argparse.Namespace:
    """The words, where they go together."""
    chosen = words.parse_args()
    if chosen.lightest == "path" and chosen.between is None:
        words.error("--lightest path needs --between A B")
    if chosen.between is not None and chosen.lightest not in ("path", "cut"):
        words.error("--between goes with --lightest path or cut")
    if chosen.then and chosen.lightest is None:
        words.error("--then goes with --lightest")
    if chosen.dual and chosen.lightest is not None:
        words.error("--dual goes with --is, --minor and --formula")
    return chosen


# ---------------------------------------------------------------- the file and the question


def _source(chosen: argparse.Namespace) -> Source:
    if _is_network(chosen):
        if chosen.lightest in _CODE_WORDS:
            raise ToolError(Exit.REFUSED, f"{chosen.file} is read as a network, which has no {chosen.lightest} (--as code?)")
        return network_source(chosen.file, chosen.format, chosen.weight, chosen.field or 2, chosen.between)
    if chosen.lightest in _NETWORK_WORDS:
        raise ToolError(Exit.REFUSED, f"{chosen.file} is read as a code, which has no {chosen.lightest} (--as network?)")
    return code_source(chosen.file, chosen.field, Role.GENERATOR if chosen.generator else None)


def _is_network(chosen: argparse.Namespace) -> bool:
    if chosen.kind is not None:
        return bool(chosen.kind == "network")
    return chosen.format is not None or is_network_file(chosen.file) or chosen.lightest in _NETWORK_WORDS


def _question(chosen: argparse.Namespace, source: Source, ever: Sequence[int]) -> Question:
    """The question; `ever` has all weights that elements ever have."""
    if chosen.between is not None:
        return lightest_between(chosen.lightest, ever, source.matroid.count - 1)
    if chosen.lightest is not None:
        return lightest(chosen.lightest, ever)
    if chosen.formula is not None:
        return _own_formula(chosen.formula, chosen.dual)
    if chosen.property is not None:
        asked = property_named(chosen.property, source.matroid.count)
    else:
        asked = minor_named(chosen.minor, source.matroid.order)
    return replace(asked, on_dual=asked.on_dual != chosen.dual)


def _own_formula(text: str, on_dual: bool) -> Question:
    if "\n" in text:
        raise ToolError(Exit.USAGE, "--formula is one line")
    words = text.split(None, 2)
    if len(words) == 3 and words[:2] == ["least", "X"]:
        return Least("X", words[2], on_dual, 0, None)
    if len(words) >= 2 and words[0] == "decide":
        return Decide("the formula holds", " ".join(words[1:]), on_dual)
    raise ToolError(Exit.USAGE, "--formula is 'decide F' or 'least X F'")


# ---------------------------------------------------------------- the job


@dataclass(frozen=True)
class Prices:
    """The weights of the file and the changes, and the weight of an element that fails where the set may not have it."""

    given: Weights
    changes: list[Change]

    @property
    def forbidding(self) -> int:
        """A weight that no set outweighs."""
        return more_than_all([*self.given.whole, *(change.weight or 0 for change in self.changes)])

    def ever(self) -> list[int]:
        """All weights that elements ever have."""
        fails = any(change.weight is None for change in self.changes)
        known = [*self.given.whole, *(change.weight or 0 for change in self.changes)]
        return [*known, self.forbidding] if fails else known

    def after(self) -> Iterator[tuple[Optional[Change], list[int], frozenset[int]]]:
        """At first and after each change: the weights, and the elements that have failed."""
        whole = list(self.given.whole)
        failed: frozenset[int] = frozenset()
        yield None, list(whole), failed
        for change in self.changes:
            if change.weight is None:
                failed |= {change.element}
            else:
                failed -= {change.element}
                whole[change.element] = change.weight
            yield change, list(whole), failed


def _job(program: Program, source: Source, found: Found, question: Question, prices: Prices) -> str:
    """The header that `mso` makes of the matrix and the tree, and the question."""
    matroid = source.matroid
    if isinstance(question, Least):
        whole = [question.weight_in_job(element, weight) for element, weight in enumerate(prices.given.whole)]
        matroid = replace(matroid, weights=Weights(whole, prices.given.scale))
    header = program.output(["build"], build_text(matroid, found.tree))
    if question.on_dual != source.dual:
        header = program.output(["dual"], header)
    return job_text(header, question.line)


def _edits(source: Source, question: Question, prices: Prices) -> str:
    """An edit for each change of a lightest set."""
    if not isinstance(question, Least):
        return ""
    return "".join(_edit(change, source, question, prices) for change in prices.changes)


def _edit(change: Change, source: Source, question: Least, prices: Prices) -> str:
    """The edit of a change: a link that fails costs nothing in a cut, and too much in every other set."""
    weight = change.weight
    if weight is None:
        weight = 0 if question.on_dual else prices.forbidding
    return f"weight {source.matroid.labels.names[change.element]} {question.weight_in_job(change.element, weight)}\n"


# ---------------------------------------------------------------- the answer


def _print_answers(chosen: argparse.Namespace, source: Source, question: Question, prices: Prices, answers: list[str]) -> None:
    """One answer for the file and one for each change."""
    if isinstance(question, Decide):
        print(answers[0] if chosen.line else f"{question.what}: {'yes' if answers[0] == 'true' else 'no'}")
        return
    for answer, (change, whole, failed) in zip(answers, prices.after()):
        if change is not None and not chosen.line:
            print(f"after {change.text}:")
        print("\n".join(_told(chosen, source, question, answer, whole, failed)))


def _told(
    chosen: argparse.Namespace, source: Source, question: Least, answer: str, whole: list[int], failed: frozenset[int]
) -> list[str]:
    labels, units = source.matroid.labels, source.matroid.weights
    found = lightest_set(answer, question, labels, whole, failed)
    if not chosen.line:
        return shown(found, question.what, labels, whole, units)
    if found is None:
        return ["none"]
    return ["\t".join([units.shown(found.weight), *(labels.labels[element] for element in found.elements)])]


def _ask(chosen: argparse.Namespace) -> Exit:
    started = time.monotonic()
    program = Program.find(chosen.mso)
    source = _source(chosen)
    prices = Prices(source.matroid.weights, [read_change(text, source.matroid) for text in chosen.then])
    question = _question(chosen, source, prices.ever())
    found = search(source.matroid, chosen, source.bound, False)
    searched = time.monotonic()
    job = _job(program, source, found, question, prices)
    answers = program.output(["run"], job + _edits(source, question, prices)).splitlines()
    _print_answers(chosen, source, question, prices, answers)
    if not chosen.line:
        print(f"time: {searched - started:.1f} s to find a tree of width {found.width}, {time.monotonic() - searched:.1f} s in mso")
    return Exit.DONE


def main() -> int:
    """Reads the words and gives the exit code."""
    chosen = _checked(_words())
    return run(lambda: _ask(chosen))


if __name__ == "__main__":
    sys.exit(main())
