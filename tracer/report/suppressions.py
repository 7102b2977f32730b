"""Files of suppressions, as ThreadSanitizer has them: each line leaves out the pairs that it matches."""
import os
import re
from collections.abc import Callable
from typing import NamedTuple

from report import source_lines
from report.failure import Failure
from report.pairs import Pair
from report.result import count

Test = Callable[[Pair], bool]


class Used(NamedTuple):
    line: str
    pairs: int
    races: int


class Suppressions:
    """What matches a part of a function's name or of a file's name on either stack is left out by the line
    `race:PATTERN`; `variable:PATTERN` is for a part of the variable's name. `*` matches anything, `^` and `$` the
    name's beginning and end. `pair:FILE:LINE FILE:LINE NAME` leaves out one pair, by the name of its variable if it has
    one. ThreadSanitizer's other kinds of lines are passed over."""

    OTHERS = {"thread", "mutex", "signal", "deadlock", "called_from_lib", "race_top"}
    PAIR = re.compile("(.+):([0-9]+) (.+):([0-9]+)(?: (.+))?")
    # What each run leaves out, and reports if it does.
    OWN = os.path.join(os.path.dirname(os.path.realpath(__file__)), "libstdc++.suppressions")

    def __init__(self, name: str | None = None) -> None:
        self.tests: dict[str, Test] = {}
        self.matched: dict[str, list[Pair]] = {}
        self.read(self.OWN)
        self.own = set(self.tests)
        if name:
            self.read(name)

    def read(self, name: str) -> None:
        with open(name, encoding="utf-8", errors="surrogateescape") as file:
            for number, line in enumerate(file.read().splitlines(), 1):
                self.take(line.strip(), f"{name}:{number}")

    def told(self) -> list[Used]:
        counts = ((line, count(pairs)) for line, pairs in self.matched.items())
        used = [Used(line, counted.pairs, counted.races) for line, counted in counts]
        return [one for one in used if one.pairs > 0 or one.line not in self.own]

    def take(self, line: str, where: str) -> None:
        kind, colon, pattern = line.partition(":")
        if not line or line.startswith("#") or (colon and kind in self.OTHERS):
            return
        test = TESTS[kind](pattern) if kind in TESTS and pattern else None
        if not test:
            raise Failure(f"{where}: expected race:FUNCTION, race:FILE, variable:NAME or pair:FILE:LINE FILE:LINE NAME")
        self.tests[line], self.matched[line] = test, []

    def match(self, pair: Pair) -> bool:
        """Whether a line leaves this out; each that does counts it."""
        lines = [line for line, test in self.tests.items() if test(pair)]
        for line in lines:
            self.matched[line].append(pair)
        return bool(lines)


def finder(pattern: str) -> Callable[[str], object]:
    inner = pattern[pattern.startswith("^") : len(pattern) - pattern.endswith("$")]
    return re.compile(
        ("^" if pattern.startswith("^") else "") + source_lines.pattern(inner) + ("$" if pattern.endswith("$") else "")
    ).search


def race_test(pattern: str) -> Test:
    finds = finder(pattern)
    return lambda pair: any(map(finds, pair.names_on_stacks()))


def variable_test(pattern: str) -> Test:
    finds = finder(pattern)
    return lambda pair: any(map(finds, pair.variable_names()))


def pair_test(pattern: str) -> Test | None:
    found = Suppressions.PAIR.fullmatch(pattern)
    if not found:
        return None
    file, line, other, other_line, named = found.groups()
    lines = sorted([(file, int(line)), (other, int(other_line))])
    return lambda pair: (pair.lines(), pair.variable.called()) == (lines, named)


TESTS: dict[str, Callable[[str], Test | None]] = {"race": race_test, "variable": variable_test, "pair": pair_test}
