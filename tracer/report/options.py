"""The words of `spbags-run`."""
from __future__ import annotations

import os
import sys

TYPE_CHECKING = False
if TYPE_CHECKING:
    import argparse
    from collections.abc import Callable


class Options:
    """What is chosen; the options' names are those here."""

    def __init__(self) -> None:
        self.shards = "1"
        self.most = 20
        self.repeats = self.json = self.sarif = self.gen_suppressions = self.data_races = False
        self.keep: str | None = None
        self.html: str | None = None
        self.output: str | None = None
        self.suppress: str | None = None
        self.color = "auto"
        self.source_root = os.curdir
        self.streams = os.environ.get("SPBAGS_STREAMS") == "1"
        self.exitcode, self.no_answer_status = 1, 2
        self.one_run = self.incomplete_ok = False
        self.timeout: float | None = None
        self.unseen_ok: list[str] = []
        self.command: list[str] = []


def parsed(words: list[str], about: str) -> Options:
    """The usual command chooses nothing, and to import what reads options takes longer than a short program runs."""
    chosen = Options()
    if words[:1] == ["--"] and len(words) > 1:
        chosen.command = words[1:]
        return chosen
    return options(about).parse_args(words, chosen)


def options(about: str) -> argparse.ArgumentParser:
    import argparse

    from installation import VERSION

    def natural(word: str) -> int:
        if not word.isdecimal():
            raise argparse.ArgumentTypeError("expected a number, 0 or more")
        return int(word)

    def status(word: str) -> int:
        if not word.isdecimal() or int(word) > 255:
            raise argparse.ArgumentTypeError("expected a status from 0 to 255")
        return int(word)

    def seconds(word: str) -> float:
        try:
            number = float(word)
        except ValueError:
            number = 0
        if not 0 < number < 1e9:
            raise argparse.ArgumentTypeError("expected a number of seconds")
        return number

    def names(word: str) -> list[str]:
        return [name for name in word.split(",") if name]

    # Without a width argparse asks the terminal for it at each option, by a module that takes long.
    width = None if {"-h", "--help"} & set(sys.argv) else 80
    parser = argparse.ArgumentParser(
        prog="spbags-run",
        description=about,
        formatter_class=lambda prog: argparse.RawDescriptionHelpFormatter(prog, width=width),
        usage="spbags-run [options] -- PROGRAM [WORD ..]",
        argument_default=argparse.SUPPRESS,
    )

    def flag(name: str, told: str, to: argparse._ActionsContainer = parser) -> None:
        to.add_argument(name, action="store_true", help=told)

    def value(name: str, metavar: str, told: str, of: Callable[[str], object] = str) -> None:
        parser.add_argument(name, metavar=metavar, type=of, help=told)

    value(
        "--shards", "N", "threads of spbags that share the locations, 1 to 64 (default 1, since the program runs too)"
    )
    value("--most", "N", "show at most N pairs of lines (default 20)", natural)
    flag("--repeats", "write repeats into the trace too")
    value("--keep", "TRACE", "keep the trace in this file, and its places in TRACE.places")
    form = parser.add_mutually_exclusive_group()
    flag("--json", "print one JSON object; what the program prints then goes to standard error", form)
    flag("--sarif", "print SARIF 2.1.0, for editors and code review; the program's output goes as with --json", form)
    value("--html", "FILE", "write the report into this file too, as a page for browsers")
    colours = "colours in the text: always, never, or auto, on a terminal unless NO_COLOR is set (default auto)"
    parser.add_argument("--color", metavar="WHEN", choices=("auto", "always", "never"), help=colours)
    value("--output", "FILE", "write the report into this file")
    value("--source-root", "DIR", "name the files from this folder (default: the current one)")
    value("--suppress", "FILE", "leave out the races that this file names")
    flag("--gen-suppressions", "print lines for --suppress that leave out each pair, in place of the report")
    flag("--data-races", "leave out pairs that aren't data races")
    flag("--streams", "report children that use one stream or descriptor in an order that isn't determined")
    value("--exitcode", "N", "the status if there is a race (default 1)", status)
    value("--no-answer-status", "N", "the status if there is no answer (default 2; `git bisect run` needs 125)", status)
    flag("--one-run", "run the program once, and look from its start: lines without stacks")
    value("--timeout", "S", "end the program after S seconds, and report what came before", seconds)
    flag("--incomplete-ok", "status 0 in place of 3, which accepts what wasn't seen or modelled")
    unseen = "accept calls of these unknown functions: names separated by commas; * matches anything"
    value("--unseen-ok", "LIST", unseen, names)
    parser.add_argument("--version", action="version", version=f"spbags-run {VERSION}")
    parser.add_argument("command", nargs="+", metavar="PROGRAM")
    return parser
