"""The report of `spbags-run` as JSON."""
from typing import TYPE_CHECKING, Any

from report import source_lines
from report.result import Report
from report.source_lines import Position
from report.stack_rows import Frame

if TYPE_CHECKING:
    from report.pairs import Pair, Side, Variable

VERSION = 3
# What the object of a variable has, by its kind; and what is only there where it is known.
FIELDS = {
    "global": ("name", "offset", "size", "address", "thread_local", "expression", "rest"),
    "local": ("function",),
    "heap": ("offset", "size", "element"),
    "memory": ("address",),
    "stream": ("name",),
}
NAMED_LOCAL = ("name", "offset", "size", "expression", "rest")
KNOWN = ("expression", "owner", "parts", "parts_count", "stack")
# What the object of a pair has of it.
OF_PAIR = ("races", "location", "guard", "held_before", "neighbours", "borrowed", "reducer", "missing_sync", "siblings")


def object_of(value: Any) -> Any:
    """Records as objects, and what is in them; a position has the text of its line too."""
    if isinstance(value, list):
        return list(map(object_of, value))
    if isinstance(value, Position):
        return {**value._asdict(), "text": source_lines.text_of(value)}
    if isinstance(value, Frame):
        return {"role": value.role, **object_of(value.position)}
    parts = value._asdict() if hasattr(value, "_asdict") else getattr(value, "__dict__", None)
    return value if parts is None else {name: object_of(one) for name, one in parts.items()}


def variable_object(variable: "Variable") -> dict[str, Any]:
    known = (name for name in KNOWN if getattr(variable, name))
    named = NAMED_LOCAL if variable.kind == "local" and variable.name else ()
    names = ("kind", *FIELDS.get(variable.kind, ()), *named, *known)
    return {name: object_of(getattr(variable, name)) for name in names}


def side_object(side: "Side") -> dict[str, Any]:
    lead, stack = object_of(side.lead()), object_of(side.stack)
    return {"kind": side.kind, "atomic": side.atomic, "user_frame": lead, "stack": stack}


def pair_object(pair: "Pair") -> dict[str, Any]:
    first, second = map(side_object, pair.sides)
    own = {name: object_of(getattr(pair, name)) for name in OF_PAIR}
    more = {"suggested": pair.suggested, "suppression": pair.suppression()}
    return {**own, "first": first, "second": second, "variable": variable_object(pair.variable), **more}


def as_object(report: Report) -> dict[str, Any]:
    own = {name: object_of(value) for name, value in vars(report).items() if name != "pairs"}
    stacks, pairs = report.races > report.without_stacks, list(map(pair_object, report.pairs))
    return {"version": VERSION, **own, "stacks": stacks, "pairs": pairs}
