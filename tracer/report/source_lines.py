"""Where code addresses of a program stand in its source, by addr2line of binutils, and what stands there."""
import functools
import os
import re
from collections.abc import Iterable
from typing import NamedTuple

from installation import SYSTEM, is_own
from processes import heard, memory_file
from report.failure import Failure
from report.root import Root


class _Position(NamedTuple):
    file: str
    line: int
    function: str


class Position(_Position):
    """A function, and a line of it; the line is 0 where it isn't known."""

    # What of a spawn of C++ this is: the function that its statement becomes, or what this calls for the child.
    STATEMENT, WAY = "statement", "way"
    part: str | None = None


UNKNOWN = Position("?", 0, "?")
# What a compiler puts behind the name of a function when it makes others of its parts.
OUTLINED = re.compile(r"(?:\._omp_(?:cpy)?fn\.[0-9]+| \[clone [^]]*\])+$")
# What clang makes of a loop's body.
CAPTURED = re.compile(r"__captured_stmt(?:\.[0-9]+)?")
# What the plugin calls functions that call others that OpenMP is made into.
CALLER = "__spbags_outlined"
# A comment; or a string or a character, which may look like one inside.
COMMENT = re.compile(r"//[^\n]*|/\*(?:.|\n)*?\*/|\"(?:\\.|[^\"\\\n])*\"|'(?:\\.|[^'\\\n])*'")
# The functions that a spawn of C++ is made of, by their first parameter; and those of the headers.
SPAWNED, ON_THE_WAY = "::{lambda(__spbags_spawned", "__spbags_"
# What stands for a line in what a program says of its run.
CODE = re.compile("<code (0x[0-9a-f]+)>")


def asked(*command: str, given: str = "") -> str:
    """What a program of binutils answers."""
    with memory_file() as questions, memory_file() as faults:
        questions.write(given.encode(errors="surrogateescape"))
        questions.seek(0)
        try:
            status, answer = heard([*command], 1, {0: questions.fileno(), 2: faults.fileno()})
        except OSError as error:
            raise Failure(f"{command[0]}: {error.strerror}") from error
        if status != 0:
            faults.seek(0)
            raise Failure(faults.read().decode(errors="replace").strip() or f"{command[0]} gave no answer")
    return answer


def demangled(names: Iterable[str]) -> dict[str, str]:
    """What the source calls each of these symbols."""
    names = list(names)
    mangled = [name for name in names if name.startswith("_Z")]
    shown = asked("c++filt", given="\n".join(mangled)).splitlines() if mangled else []
    return dict(zip(names, names)) | dict(zip(mangled, shown))


def pattern(text: str) -> str:
    """An expression for this text, in which `*` is anything."""
    return ".*".join(map(re.escape, text.split("*")))


@functools.lru_cache
def shown(file: str) -> str:
    """A file's name from the root, where it is below that or below the folder around that; those of the system keep
    theirs."""
    whole, root = os.path.normpath(file), os.path.abspath(Root.folder)
    around = os.path.dirname(root)
    # What is in the folders of the system itself, as in /tmp, has nothing to do with each other.
    near = os.path.join(around if around.count(os.sep) > 1 else root, "")
    is_near = whole.startswith(near) and not whole.startswith(SYSTEM) and not is_own(whole)
    return os.path.relpath(whole, root) if is_near else whole


def is_system(position: Position) -> bool:
    return position.file.startswith(SYSTEM) or is_own(position.file)


def leading(positions: list[Position]) -> Position:
    """The first that doesn't stand in a header of the system, or else the first."""
    return next((position for position in positions if not is_system(position)), positions[0])


def positions_of(program: str, codes: Iterable[int]) -> dict[int, list[Position]]:
    """For each code address the positions there, the innermost first: several where a call was put into its caller.
    An address is that after a call, so one less is the call's."""
    ordered = sorted(set(codes))
    given = "".join(f"{max(code - 1, 0):#x}\n" for code in ordered)
    found = asked("addr2line", "-C", "-a", "-f", "-i", "-e", program, given=given).splitlines()
    starts = [number for number, line in enumerate(found) if line.startswith("0x")]
    positions = {}
    for code, start, end in zip(ordered, starts, [*starts[1:], len(found)]):
        there = [position_of(found[at], found[at + 1]) for at in range(start + 1, end, 2)]
        positions[code] = [position for position in there if position.function != CALLER] or there
    if len(positions) != len(ordered):
        raise Failure("addr2line gave no answer")
    return positions


def with_lines(program: str, texts: list[str]) -> list[str]:
    """The texts with lines in place of codes."""
    codes = {int(code, 16) + 1 for text in texts for code in CODE.findall(text)}
    try:
        positions = positions_of(program, codes)
    except Failure:
        positions = {}

    def line_of(match: re.Match[str]) -> str:
        position = positions.get(int(match[1], 16) + 1, [UNKNOWN])[-1]
        return f"{position.file}:{position.line}" if position.line > 0 else f"address {match[1]}"

    return [CODE.sub(line_of, text) for text in texts]


def position_of(function: str, where: str) -> Position:
    file, _, line = where.split(" (")[0].rpartition(":")
    function = CAPTURED.sub("cilk_for", OUTLINED.sub("", function))
    position = Position(shown(file), int(line) if line.isdigit() else 0, without_spawns(function))
    innermost = function.rfind("::{lambda(")
    if ON_THE_WAY in position.function or function.startswith(SPAWNED + ",", innermost):
        position.part = Position.WAY
    elif function.startswith(SPAWNED + ")", innermost):
        position.part = Position.STATEMENT
    return position


def after_brackets(text: str, at: int, opening: str, closing: str) -> int:
    """The end of the brackets that begin here, if any do."""
    deep = 0
    for end in range(at, len(text)):
        deep += {opening: 1, closing: -1}.get(text[end], 0)
        if deep == 0:
            return end + 1 if end > at else at
    return at


def without_spawns(function: str) -> str:
    """The name of a function, without those that a spawn's statement becomes, in which it stands."""
    start = function.find(SPAWNED)
    end = function.find("}::operator()", start)
    if start < 0 or end < 0:
        return function
    end += len("}::operator()")
    for brackets in ("<>", "()"):
        end = after_brackets(function, end, *brackets)
    end += len(" const") if function.startswith(" const", end) else 0
    return without_spawns(function[:start].removeprefix("decltype(auto) ").removeprefix("auto ") + function[end:])


@functools.lru_cache
def lines_of(file: str) -> list[str]:
    """As a compiler counts them: a form feed, say, ends none."""
    try:
        with open(path_of(file), errors="replace", newline="\n") as source:
            return source.read().split("\n")
    except OSError:
        return []


def path_of(file: str) -> str:
    return os.path.join(Root.folder, file)


def is_newer(file: str, program: str) -> bool:
    """Whether a source is newer than the program, so that its lines may be others than those that ran."""
    try:
        return os.path.getmtime(path_of(file)) > os.path.getmtime(program)
    except OSError:
        return False


def without_comments(text: str) -> str:
    """A source with spaces in place of its comments, on the same lines."""
    return COMMENT.sub(lambda found: found[0] if found[0][0] in "\"'" else re.sub(r"[^\n]", " ", found[0]), text)


def text_of(position: Position) -> str:
    """The text of a line, without the space around it."""
    lines = lines_of(position.file)
    return lines[position.line - 1].strip() if 0 < position.line <= len(lines) else ""
