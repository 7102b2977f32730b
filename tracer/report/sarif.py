"""The report of `spbags-run` as SARIF 2.1.0, which editors and reviews of code read."""
import collections
import hashlib
import os
from typing import Any
from urllib.parse import quote

from report import source_lines, text
from report.ending import left_out_lines
from report.pairs import Pair, Side
from report.result import Report
from report.root import Root
from report.source_lines import Position

SCHEMA = "https://json.schemastore.org/sarif-2.1.0.json"
RACE, GUARDED = "determinacy-race", "guarded-race"
RULES = {
    RACE: "Two accesses, one a write, are parallel: another schedule may give another result.",
    GUARDED: "Two accesses are parallel, and both are atomic or under one lock: either may come first.",
}
# Where determinacy races are defined.
HELP = "https://doi.org/10.1145/258492.258493"
# The folder from which files below it are named.
ROOT, FINGERPRINT = "%SRCROOT%", "spbagsLines/v1"

Object = dict[str, Any]


def uri_of(file: str) -> str:
    """A file is named from the root."""
    return "file://" + quote(os.fsencode(os.path.abspath(source_lines.path_of(file))))


def artifact_of(file: str) -> Object:
    relative = os.path.relpath(source_lines.path_of(file), Root.folder)
    is_below = relative.split(os.sep)[0] != os.pardir
    return {"uri": quote(os.fsencode(relative)), "uriBaseId": ROOT} if is_below else {"uri": uri_of(file)}


def place_of(position: Position) -> Object:
    place = {"artifactLocation": artifact_of(position.file)}
    return {**place, "region": {"startLine": position.line}} if position.line > 0 else place


def location_of(position: Position, said: str) -> Object:
    place = {"physicalLocation": place_of(position)} if position.file != source_lines.UNKNOWN.file else {}
    return {**place, "message": {"text": said}, "logicalLocations": [{"name": position.function, "kind": "function"}]}


def stack_of(side: Side) -> Object:
    frames = [{"location": location_of(frame.position, frame.role)} for frame in side.stack]
    return {"message": {"text": f"the {side.kind}"}, "frames": frames}


def fingerprint_of(pair: Pair) -> str:
    """The same where lines are only moved."""
    leads = [side.lead() for side in pair.sides]
    sides = sorted((lead.file, lead.function, source_lines.text_of(lead)) for lead in leads)
    return hashlib.sha256(repr((sides, pair.variable.name)).encode(errors="surrogateescape")).hexdigest()[:32]


def result_of(pair: Pair, unit: int, seen: collections.Counter[str]) -> Object:
    variable = f"variable {text.variable_line(pair.variable, unit)}"
    said = [text.headline(pair), variable, *map(" ".join, text.order_rows(pair))]
    first, second = pair.sides
    fingerprint = fingerprint_of(pair)
    seen[fingerprint] += 1
    return {
        "ruleId": GUARDED if pair.is_guarded() else RACE,
        "level": "warning" if pair.is_guarded() else "error",
        "message": {"text": ". ".join(said)},
        "locations": [location_of(second.lead(), second.kind)],
        "relatedLocations": [{"id": 1, **location_of(first.lead(), first.kind)}],
        "partialFingerprints": {FINGERPRINT: f"{fingerprint}:{seen[fingerprint]}"},
        "stacks": [stack_of(side) for side in pair.sides],
    }


def notifications_of(report: Report) -> list[Object]:
    """What wasn't seen or modelled, and what else the report says of the run."""
    told = [*(("warning", line) for line in left_out_lines(report)), *(("note", line) for line in report.notes)]
    return [{"level": level, "message": {"text": line}} for level, line in told]


def as_object(report: Report, version: str) -> Object:
    rules = [{"id": name, "shortDescription": {"text": meaning}, "helpUri": HELP} for name, meaning in RULES.items()]
    seen: collections.Counter[str] = collections.Counter()
    told = notifications_of(report)
    run = {
        "tool": {"driver": {"name": "spbags-run", "version": version, "rules": rules}},
        "originalUriBaseIds": {ROOT: {"uri": uri_of(os.curdir).rstrip("/") + "/"}},
        "invocations": [{"executionSuccessful": True, "arguments": report.command, "toolExecutionNotifications": told}],
        "results": [result_of(pair, report.unit, seen) for pair in report.pairs],
    }
    return {"$schema": SCHEMA, "version": "2.1.0", "runs": [run]}
