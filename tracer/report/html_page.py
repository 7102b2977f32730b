"""The report of `spbags-run` as one page of HTML that needs no other file and no script. jinja2 lays it out by
report.html.j2 and escapes all text of the program; pygments tells comments, strings and keywords of sources apart."""
import functools
import io
import os
import shlex
from itertools import groupby
from typing import NamedTuple

# mypy: no-warn-unused-ignores
import jinja2  # type: ignore[import]
from markupsafe import Markup  # type: ignore[import]
from pygments import token  # type: ignore[import]
from pygments.formatters.html import HtmlFormatter  # type: ignore[import]
from pygments.lexers.c_cpp import CLexer, CppLexer  # type: ignore[import]

from report import ending, source_lines, stack_rows, text
from report.function_names import function_of
from report.pairs import Pair
from report.result import Ended, Report
from report.source_lines import Position
from report.stack_rows import Frame

HERE = os.path.dirname(os.path.realpath(__file__))
TEMPLATE = "report.html.j2"
# So many lines stand before and behind an access.
AROUND = 10
# So many pairs are shown whole, and sources up to so many bytes have colours: a browser opens thousands of pairs at
# once.
WHOLE, MOST = 200, 1 << 19
COLOURED = (token.Comment.Preproc, token.Comment, token.String, token.Keyword, token.Number)
# How many boxes of the way a column has at most at its beginning and at its end, and the letters of a row in one.
BOXES, LETTERS = 3, 40
# The kind of a box by the label of a row, and what its code does; an access does what its label says.
DOES = {
    stack_rows.LABELS["spawn"]: ("spawn", "spawns"),
    stack_rows.LABELS["call"]: ("call", "calls"),
    stack_rows.LEFT_OUT: ("rest", ""),
}


Excerpt = NamedTuple("Excerpt", [("name", str), ("place", str), ("function", str), ("lines", str)])
Box = NamedTuple("Box", [("kind", str), ("function", str), ("place", str)])
# Where both accesses meet, and the way from there to each.
Way = NamedTuple("Way", [("top", Box), ("columns", list[list[Box]])])


# ---- Sources ----


@functools.cache
def coloured(file: str) -> list[str]:
    """The lines of a source as HTML, in which only what has a colour is an element."""
    whole = "\n".join(source_lines.lines_of(file))
    lexer = CLexer() if file.endswith(".c") else CppLexer()
    tokens = [(0, token.Text, whole)] if len(whole) > MOST else lexer.get_tokens_unprocessed(whole)
    kinds = ((next((one for one in COLOURED if kind in one), token.Text), piece) for _, kind, piece in tokens)
    made = io.StringIO()
    HtmlFormatter(nowrap=True).format(kinds, made)
    return list(map(Markup, made.getvalue().split("\n")))


@functools.cache
def lines_around(file: str, line: int) -> Markup:
    """The lines round one as HTML, each with its number; that one is marked."""
    lines = coloured(file)
    first, last = max(line - AROUND, 1), min(line + AROUND, len(lines) - (lines[-1:] == [""]))
    width, made = len(str(last)), []
    for number in range(first, last + 1):
        row = Markup("{}  {}").format(f"{number:{width}}", lines[number - 1])
        made.append(Markup("<mark>{}</mark>").format(row) if number == line else row)
    return Markup("\n").join(made) if line > 0 else Markup("")


def excerpt_of(lead: Position, name: str = "") -> Excerpt:
    return Excerpt(name, stack_rows.place(lead), function_of(lead), lines_around(lead.file, lead.line))


def excerpts_of(pair: Pair) -> list[Excerpt]:
    """Those of both accesses, or one where both stand on one line."""
    return [
        excerpt_of(lead, " and ".join(text.kind_of(side.kind, pair) for side in sides))
        for lead, sides in groupby(pair.sides, key=lambda side: side.lead())
    ]


# ---- The way from where both accesses meet ----


def column_of(stack: list[Frame]) -> list[stack_rows.Row]:
    """The rows of a stack from the outermost on, without the system's functions, and in the middle without some."""
    own = [frame for frame in stack if not source_lines.is_system(frame.position)] or stack[:1]
    found = stack_rows.rows([own[0]._replace(role=stack[0].role), *own[1:]])[::-1]
    return stack_rows.without_middle(found, BOXES)


def box_of(kind: str, function: str, said: str) -> Box:
    return Box(kind, text.in_middle(function, LETTERS), text.at_start(said, LETTERS))


def box_of_row(row: stack_rows.Row) -> Box:
    kind, does = DOES.get(row.label, ("access", row.label))
    said = f"{row.place} {does}{f', {row.behind}' if row.behind else ''}".strip()
    return box_of(kind, row.function, said)


def top_of(pair: Pair, outermost: list[Position]) -> Box | None:
    """The construct whose children race, or the function where both meet; None where that isn't known."""
    if pair.siblings:
        position = pair.siblings.position
        return box_of("spawn", function_of(position), f"{stack_rows.place(position)} spawns both")
    if outermost[0].function == outermost[1].function and outermost[0].line > 0:
        return box_of("call", function_of(outermost[0]), "both meet here")
    return None


def way_of(pair: Pair) -> Way | None:
    """Two columns of boxes below one, as far as both stacks aren't alike."""
    stacks = text.stacks_of(pair)
    tail = stack_rows.common_tail(*stacks)
    own = [stack[: len(stack) - tail] for stack in stacks]
    top = top_of(pair, [stack[-1].position for stack in own])
    return Way(top, [list(map(box_of_row, column_of(stack))) for stack in own]) if top else None


# ---- The page ----


def stacks_of(pair: Pair) -> list[tuple[str, list[stack_rows.Row]]]:
    """What each access is called, and the rows of its stack."""
    both = zip(text.stacks_of(pair), pair.sides)
    return [(stack[0].role, stack_rows.access_rows(stack, side.lead())) for stack, side in both]


def ending_of(ended: Ended) -> str:
    how = f"with status {ended.status}" if ended.signal is None else f"by signal {ended.signal}"
    return how + ("" if ended.complete else ", before its end")


def meaning_of(report: Report) -> str:
    """Of the status, whatever number it is."""
    if report.pairs or report.not_shown.pairs:
        return "the report has races"
    is_whole = not ending.left_out_lines(report)
    return (
        f"no race was found, {'and everything was seen and' if is_whole else 'but not everything was seen or'} modelled"
    )


def page_of(report: Report, status: int) -> str:
    numbered = enumerate(report.pairs, 1)
    groups = [(text.heading(alike), [next(numbered) for _ in alike]) for alike in text.by_variable(report.pairs)]
    # The sources of pairs that aren't shown whole, each with its number.
    leads = dict.fromkeys(side.lead() for pair in report.pairs[WHOLE:] for side in pair.sides)
    loader, strict = jinja2.FileSystemLoader(HERE), jinja2.StrictUndefined
    environment = jinja2.Environment(
        loader=loader, autoescape=True, trim_blocks=True, lstrip_blocks=True, undefined=strict
    )
    return str(
        environment.get_template(TEMPLATE).render(
            text=text,
            place_of=stack_rows.place,
            allocation_rows=stack_rows.allocation_rows,
            excerpts_of=excerpts_of,
            way_of=way_of,
            stacks_of=stacks_of,
            program=os.path.basename(report.command[0]),
            command=shlex.join(report.command),
            report=report,
            last_line=ending.last_line(report),
            ended=ending_of(report.ended),
            status=status,
            meaning=meaning_of(report),
            unseen=ending.left_out_lines(report),
            notes=[*report.notes, *map(ending.suppression_line, report.suppressions)],
            groups=groups,
            most=WHOLE,
            numbers={lead: number for number, lead in enumerate(leads)},
            excerpts=map(excerpt_of, leads),
        )
    )
