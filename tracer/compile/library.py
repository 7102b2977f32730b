"""What library.table says, as the hooks' wrappers in C."""
from __future__ import annotations

import functools
import os
import re

from installation import HERE

TABLE = os.path.join(HERE, "library.table")
WORD = re.compile(r"([^\s()]+)(?:\(([^)]*)\))?")
PROTOTYPE = re.compile(r"(?P<result>.*?)(?P<name>\w+)\((?P<parameters>.*)\)")

LOCK = "lock of "

# These are names of structs too, so their macros want a bracket behind them.
TAGS = {"stat", "stat64", "statfs", "statfs64", "statvfs", "statvfs64", "statx", "sysinfo"}

# The endings of the names of one function for each floating type.
FLOATING = ("", "f", "l", "f32", "f64", "f128", "f32x", "f64x")


class Function:
    """A row of the table."""

    def __init__(self, line: str) -> None:
        prototype, reads, writes, others, *shared = (field.strip() for field in line.split("|"))
        found = PROTOTYPE.fullmatch(prototype)
        assert found, prototype
        self.prototype, self.result, self.name = prototype, found["result"].strip(), found["name"]
        self.parameters = found["parameters"]
        self.reads, self.writes = items_of(reads), items_of(writes)
        self.names = [self.name, *others.split()]
        # By its manual page.
        self.shared = shared[0].split() if shared else []
        # What the function holds inside while it touches these.
        self.lock = next((item[0].removeprefix(LOCK) for item in self.reads if item[0].startswith(LOCK)), None)

    def arguments(self) -> list[str]:
        """The parameters' names; a pointer to a function has its own in brackets."""
        names = []
        for parameter in split_at(",", self.parameters) if self.parameters != "void" else ():
            pointer = re.search(r"\(\*(\w+)\)", parameter)
            names.append(pointer[1] if pointer else re.findall(r"\w+|\.\.\.", parameter)[-1])
        return names

    def declared(self, name: str) -> str:
        space = "" if self.result.endswith("*") else " "
        return f"{self.result}{space}{name}({self.parameters})"

    def notes(self, name: str, after: bool) -> list[str]:
        """The block of the hooks' calls before the function, or after it."""
        both = [("READ", item) for item in self.reads] + [("WRITE", item) for item in self.writes]
        wanted = ((kind, item) for kind, item in both if not item[0].startswith(LOCK) and is_after(item) == after)
        made = [note_of(kind, item, "__wrap_" + name) for kind, item in wanted]
        if made and self.lock:
            state = f"(uintptr_t)state({self.lock})"
            made = [f'guards_enter({state}, "the lock of {self.lock}");', *made, f"guards_leave({state});"]
        return ["    if (doing.tracing) {", *("        " + note for note in made), "    }"] if made else []

    def takes_list(self) -> bool:
        return any(item[0].startswith(("strings of ", "fields of ")) for item in self.reads + self.writes)

    def wrapper(self, name: str) -> str:
        """The function that is called instead of the one of that name."""
        arguments, real, begin, end = self.arguments(), name, [], []
        takes_over = arguments[-1:] == ["list"]
        if arguments[-1:] == ["..."]:
            real = re.sub("^(__isoc[0-9]+_|__)?", lambda prefix: prefix[0] + "v", name, count=1)
            begin = ["    va_list list;", f"    va_start(list, {arguments[-2]});"]
            end = ["    va_end(list);"]
            arguments[-1] = "list"
        if self.takes_list():
            begin += ["    va_list copy;", "    va_copy(copy, list);"]
            end += ["    va_end(copy);"]
        if takes_over:
            begin.append(f"    note_list(list, (__spbags_function)__wrap_{name}, STACK_POINTER, CODE);")
        call, answer = f"__real_{real}({', '.join(arguments)});", []
        if self.result != "void":
            call, answer = f"{self.result} result = {call}", ["    return result;"]
        before = [self.declared("__wrap_" + name) + " {", *begin, *self.notes(name, False)]
        return "\n".join([*before, "    " + call, *self.notes(name, True), *end, *answer, "}", ""])


def is_after(item: list[str]) -> bool:
    """Whether what is touched is known after the call alone."""
    return item[0].startswith("fields of ") or bool(re.search(r"\bresult\b", " ".join(item)))


def note_of(kind: str, item: list[str], self_name: str) -> str:
    """The hooks' call for one item of a row."""
    words = item[0].split()
    if words[0] == "strings":
        return f"NOTE_STRINGS({narrow(words)}, copy, {self_name});"
    if words[0] == "fields":
        return f"NOTE_FIELDS({narrow(words)}, copy, result, {self_name});"
    if words[0] == "order":
        return f"NOTE_ORDER({words[2]}, {self_name});"
    if words[0] == "variable":
        return f"NOTE_VARIABLE({kind}, {words[1]}, {self_name});"
    if words[0] == "pieces":
        return f"NOTE_PIECES({kind}, {words[1]}, {words[2]}, {item[1]}, {self_name});"
    if len(item) == 4:
        return f"NOTE_EVERY({kind}, {', '.join(item)}, {self_name});"
    return f"NOTE_{kind}({item[0]}, {item[1]}, {self_name});"


def narrow(words: list[str]) -> str:
    """The format in bytes."""
    return f"NARROW({words[-1]})" if words[2:3] == ["wide"] else words[-1]


def split_at(mark: str, text: str) -> list[str]:
    """The parts between the marks that stand in no bracket."""
    parts, depth = [""], 0
    for letter in text:
        depth += (letter == "(") - (letter == ")")
        if letter == mark and depth == 0:
            parts.append("")
        else:
            parts[-1] += letter
    return [part.strip() for part in parts]


def with_endings(word: str) -> list[str]:
    """The names that a word with @ stands for."""
    return [word.replace("@", ending) for ending in FLOATING] if "@" in word else [word]


def items_of(field: str) -> list[list[str]]:
    return [split_at(",", item) for item in split_at(";", field) if item]


@functools.cache
def lines() -> list[str]:
    """Those of the table that have functions."""
    with open(TABLE, encoding="utf-8") as file:
        return [line for line in file.read().splitlines() if line and not line.startswith("#")]


def words(sign: str) -> list[tuple[str, str]]:
    """The functions behind a sign, each with what it shares."""
    return [word for line in lines() if line.startswith(f"{sign} ") for word in WORD.findall(line[2:])]


def silent() -> set[str]:
    """The functions that touch no memory that the program shares."""
    return {name for word, _ in words("+") for name in with_endings(word)}


def functions() -> list[Function]:
    return [Function(line) for line in lines() if line[1] != " "]


def names() -> list[str]:
    """Those of the functions that have wrappers, also by hand."""
    return [name for function in functions() for name in function.names] + [word for word, _ in words("=")]


def declarations() -> str:
    """The real functions, which the hooks' own calls go to as well. A library may lack some."""
    made = []
    for name, function in ((name, function) for function in functions() for name in function.names):
        brackets = "(...)" if name in TAGS else ""
        made += [
            "__attribute__((weak)) " + function.declared("__real_" + name) + ";",
            f"#undef {name}",
            f"#define {name}{brackets} __real_{name}{brackets.replace('...', '__VA_ARGS__')}",
        ]
    return "\n".join(made) + "\n"


def wrappers() -> str:
    return "\n".join(function.wrapper(name) for function in functions() for name in function.names)
