"""Rewrites the OpenMP of a preprocessed source: every loop gets the schedule `dynamic`, so that the runtime is asked
for each iteration. What can't be traced is refused, with its file and line."""
from __future__ import annotations

import functools
import itertools
import re
from collections.abc import Iterator

from line_markers import Files, has_raw_strings
from installation import SYSTEM
from tokens import LITERAL, after_bracket, blanked, replaced

# A clause of a directive: its name, and where its text begins and ends.
Clause = tuple[str, int, int]

PRAGMA = re.compile(r"[ \t]*#[ \t]*pragma[ \t]+omp\b(.*)")
PRAGMAS = re.compile("^" + PRAGMA.pattern, re.MULTILINE)
SECTION = re.compile(r"[ \t]*#[ \t]*pragma[ \t]+omp[ \t]+section\b")
# A brace, and what stands before the first statement behind it.
BRACE = re.compile(r"\{(?:\s|#(?:line)? *[0-9][^\n]*\n)*")
ATTRIBUTE = re.compile(r"\[\[\s*(?:using\s+)?omp\b")
MEANT = re.compile(PRAGMA.pattern.removeprefix(r"[ \t]*") + "|" + ATTRIBUTE.pattern)
WORD = re.compile(r"[A-Za-z_]\w*")
CLAUSE = re.compile(r"([A-Za-z_]\w*)(\s*\()?")
# Of a loop: what stands before its first semicolon, and what stands between this one and the second.
HEADER = re.compile(r"\bfor\s*\(([^;]*);([^;]*);")
STATIC = re.compile(r"schedule\s*\((?:[\w\s,]*:)?\s*static\b")
# In so many letters the loops of one directive stand.
LOOPS_LENGTH = 2000

# The words that a directive begins with; those that have more here can't be traced, and are called so.
TRACED = (
    "parallel for simd sections single master masked task taskloop taskwait section ordered declare begin end cancel "
    "cancellation depobj"
)
DIRECTIVES: dict[str, str | None] = {
    **dict.fromkeys(TRACED.split()),
    **{name: name for name in "target teams distribute allocate scan metadirective dispatch interop".split()},
    "loop": "loop (write `for')",
    "allocators": "allocate",
}
# The number of a body's kind in the hooks, by the last word of its directive.
BODIES = {"parallel": 0, "single": 1, "master": 2, "masked": 2}
SIMD_BODY, SECTION_BODY, LAST_BODY, SCOPE_BODY, SCOPE_NOWAIT_BODY, SCOPED_BODY = range(3, 9)
MAKES_PARALLEL = {"parallel", "task", "taskloop"}
PRIVATE = {"private", "firstprivate", "lastprivate", "reduction"}
REFUSED_CLAUSES = {"detach", "allocate"}


def clauses_of(text: str) -> list[Clause]:
    """The clauses of a directive, each with its name, its text, and where both stand in the whole."""
    found: list[Clause] = []
    bare, at = LITERAL.sub(lambda literal: " " * len(literal[0]), text), 0
    while word := CLAUSE.search(bare, at):
        at = (after_bracket(bare, word.end() - 1) or len(text)) if word[2] else word.end()
        found.append((word[1], word.start(), at))
    return found


def leading(clauses: list[Clause]) -> list[str]:
    """The words of the directive itself."""
    return list(itertools.takewhile(DIRECTIVES.__contains__, (name for name, _, _ in clauses)))


def refusal(text: str) -> str | None:
    """What can't be traced in this directive, or None."""
    clauses = clauses_of(text)
    names = leading(clauses)
    for name in names:
        if DIRECTIVES[name]:
            return DIRECTIVES[name]
    if names == ["ordered"] and {"depend", "doacross"} & {name for name, _, _ in clauses}:
        return "depend"
    for name, start, end in clauses[len(names) :]:
        if name in REFUSED_CLAUSES:
            return name
        if re.match(r"reduction\s*\(\s*inscan\b", text[start:end]):
            return "scan"
    return None


def without(text: str, clause: str) -> tuple[str, str]:
    """A directive without a clause, and that clause."""
    for name, start, end in clauses_of(text):
        if name == clause:
            return text[:start] + text[end:].lstrip(" ,"), text[start:end]
    return text, ""


def filtered(text: str) -> str:
    """A directive that says to the hooks which thread a masked region is for."""
    _, clause = without(text, "filter")
    return text.replace(clause, f"filter(__spbags_filter({clause.partition('(')[2]})") if clause else text


def rescheduled(text: str) -> str:
    """A loop's directive with the schedule that the hooks need, whose size says what clauses it had."""
    names = {name for name, _, _ in clauses_of(text)}
    text, schedule = without(text, "schedule")
    size = 1 + 2 * bool(STATIC.match(schedule)) + 4 * ("nowait" in names) + 8 * ("lastprivate" in names)
    return text.rstrip(" ,") + f" schedule(dynamic,{size + 16 * bool(PRIVATE & names)})"


def sums_in_scope(text: str) -> bool:
    """Whether a directive is a scope whose threads combine variables of their own behind it."""
    return text.split()[:1] == ["scope"] and any(
        name == "reduction" and not re.match(r"reduction\s*\(\s*task\b", text[start:end])
        for name, start, end in clauses_of(text)
    )


def body(kind: int, file: str, line: int, next_line: int) -> str:
    """What stands before a body, and says to the hooks where it begins and ends."""
    return f'# {line} "{file}"\nfor (__spbags_body({kind}); __spbags_goes_on();)\n# {next_line} "{file}"\n'


def with_body(text: str, kind: int, file: str, line: int) -> str:
    """A directive whose body says to the hooks where it begins and ends."""
    return f"#pragma omp{text}\n" + body(kind, file, line, line + 1)


class Source:
    """A preprocessed source, whose directives are read one by one."""

    def __init__(self, text: str, is_clang: bool) -> None:
        self.text, self.files, self.has_raw_strings = text, Files(text), has_raw_strings(text)
        self.file, self.line, self.is_clang = "?", 1, is_clang
        self.faults: list[str] = []
        # Whether clang's sections come next.
        self.begins_sections = False

    @functools.cached_property
    def bare(self) -> str:
        return blanked(self.text)

    def matched(self, pattern: re.Pattern[str], start: int) -> re.Match[str] | None:
        """What this finds at the beginning of a line, which only a raw string could hold."""
        found = pattern.match(self.text, start)
        return found if found and not (self.has_raw_strings and not pattern.match(self.bare, start)) else None

    def refuse(self, why: str) -> None:
        self.faults.append(f"{self.file}:{self.line}: error: {why}")

    def directive(self, text: str, end: int) -> str:
        why = refusal(text) or self.refused_nest(text, end)
        if why:
            self.refuse(f"OpenMP's {why} can't be traced: #pragma omp{text}")
        clauses = clauses_of(text)
        names = leading(clauses)
        if names[:1] == ["cancel"]:
            return f"#pragma omp{text}\n"
        if sums_in_scope(text):
            return self.scope(text)
        if "for" in names:
            return f"#pragma omp{rescheduled(text)}\n"
        text = filtered(text)
        if names[:1] in (["master"], ["masked"]) and names[1:2] == ["taskloop"]:
            text, thread = without(text, "filter")
            rest = clauses_of(text)[1][1]
            master = with_body(f" {names[0]} {thread}", BODIES[names[0]], self.file, self.line)
            return f'{master}# {self.line} "{self.file}"\n#pragma omp {text[rest:]}\n'
        if self.is_clang and names[-1:] == ["sections"]:
            self.begins_sections = True
            if {"nowait", "lastprivate"} <= {name for name, _, _ in clauses}:
                return body(LAST_BODY, self.file, self.line, self.line) + f"#pragma omp{text}\n"
        if self.is_clang and names == ["section"]:
            return with_body(text, SECTION_BODY, self.file, self.line)
        if names == ["simd"]:
            return body(SIMD_BODY, self.file, self.line, self.line) + f"#pragma omp{text}\n"
        if names and names[-1] in BODIES:
            return with_body(text, BODIES[names[-1]], self.file, self.line)
        return f"#pragma omp{text}\n"

    def refused_nest(self, text: str, end: int) -> str | None:
        """gcc knows no schedule for it."""
        is_known = self.is_clang or "for" not in leading(clauses_of(text)) or self.is_rectangular(text, end)
        return None if is_known else "collapse by gcc of loops that aren't rectangular"

    def is_rectangular(self, text: str, end: int) -> bool:
        """Whether no loop that the directive in the line before collapses names the variable of one around it."""
        collapsed = next((text[start:end] for name, start, end in clauses_of(text) if name == "collapse"), "")
        count, variables = int("".join(re.findall("[0-9]+", collapsed)) or 1), set[str]()
        headers = HEADER.findall(self.bare, end, end + LOOPS_LENGTH) if count > 1 else ()
        for begin, condition in headers[:count]:
            variable, _, value = begin.partition("=")
            if variables & set(WORD.findall(value + condition)):
                return False
            variables |= set(WORD.findall(variable)[-1:])
        return True

    def scope(self, text: str) -> str:
        """The hooks wait in place of the scope, where its threads have combined their variables."""
        text, nowait = without(text, "nowait")
        around = body(SCOPE_NOWAIT_BODY if nowait else SCOPE_BODY, self.file, self.line, self.line)
        return around + with_body(text.rstrip(" ,") + " nowait", SCOPED_BODY, self.file, self.line)

    def first_section(self, end: int) -> Iterator[tuple[int, int, str]]:
        """The directive of the first section behind this, if it is left out."""
        self.begins_sections = False
        brace = BRACE.search(self.bare, end)
        if brace and not SECTION.match(self.bare, brace.end()):
            place = self.files.place(brace.end())
            yield brace.end(), brace.end(), "\n#pragma omp section\n" + body(SECTION_BODY, *place, place[1])

    def parts(self) -> Iterator[tuple[int, int, str]]:
        """The parts of the source that get another text."""
        end = 0
        while found := MEANT.search(self.text, end):
            start = self.text.rfind("\n", 0, found.start()) + 1
            end = self.text.find("\n", start) + 1 or len(self.text)
            yield start, end, self.rewritten_line(start, end)
            if self.begins_sections:
                yield from self.first_section(end)

    def rewritten_line(self, start: int, end: int) -> str:
        line = self.text[start:end]
        if self.files.names_file(start):
            return line
        self.file, self.line = self.files.place(start)
        pragma = self.matched(PRAGMA, start)
        if pragma:
            return self.directive(pragma[1], end)
        if ATTRIBUTE.search(line) and ATTRIBUTE.search(self.bare, start, end):
            self.refuse("attributes of OpenMP can't be traced: write #pragma omp")
        return line


def rewritten(text: str, is_clang: bool = False) -> tuple[str, list[str]]:
    """The source with its loops rewritten, and a line for each directive that can't be traced."""
    source = Source(text, is_clang)
    return replaced(text, source.parts()), source.faults


def ignored(text: str) -> Iterator[tuple[str, int]]:
    """The places of directives by which something would be parallel, but for those of the system's headers."""
    bare, files = blanked(text), Files(text)
    for pragma in PRAGMAS.finditer(text):
        if (
            PRAGMA.match(bare, pragma.start())
            and MAKES_PARALLEL & set(leading(clauses_of(pragma[1])))
            and not files.at(pragma.start())[0].startswith(SYSTEM)
        ):
            yield files.place(pragma.start())


# What the hooks of OpenMP don't have, by its name.
UNKNOWN = (
    ("GOMP_target|GOACC|GOMP_offload|omp_target", "OpenMP's target"),
    ("GOMP_doacross|GOMP_loop.*_doacross", "OpenMP's depend"),
    ("GOMP_teams|omp_.*teams", "OpenMP's teams"),
    ("omp_fulfill_event", "OpenMP's detach"),
    ("GOMP_alloc|GOMP_free|omp_.*alloc|omp_free", "OpenMP's allocate"),
    ("GOMP_loop|GOMP_parallel_loop", "a loop that the tracer's compiler didn't compile"),
    ("GOMP_|omp_|__kmpc_", "a part of OpenMP"),
)
UNDEFINED = re.compile("^(?:\\S*ld: )?(.*?):? undefined reference to [`'](\\w+)'", re.MULTILINE)


def unknown(messages: str) -> list[str]:
    """A line for each call of OpenMP that a linker's messages say is missing."""
    lines = []
    for where, name in UNDEFINED.findall(messages):
        what = next((what for pattern, what in UNKNOWN if re.match(pattern, name)), None)
        if what:
            lines.append(f"{where}: {name} can't be traced: it is {what}")
    return list(dict.fromkeys(lines))
