"""Races by the code of their accesses alone, as a trace's places have it: without stacks."""
from collections.abc import Iterable
from dataclasses import dataclass, field

from report import source_lines
from report.checker_answers import Guard, Places, Race, Site
from report.pairs import Pair, Side, Variable, merged
from report.result import UNKNOWN_GUARD
from report.stack_rows import Frame

# The number of the guard that all atomic accesses hold.
ATOMIC = 1


@dataclass
class Sites:
    """Races whose accesses are of the same two sites, by their locations."""

    kinds: tuple[str, str]
    sites: tuple[Site | None, Site | None]
    locations: list[int] = field(default_factory=list)

    def codes(self) -> list[int]:
        """Those of both accesses, or 0 where they aren't known."""
        return [site.code if site else 0 for site in self.sites]

    def is_narrow(self) -> bool:
        """Whether an access may not fill its unit."""
        return any(site is None or site.is_narrow for site in self.sites)

    def is_atomic(self) -> list[bool]:
        return [site is not None and ATOMIC in dict(site.guards or ()) for site in self.sites]


def common_guard(sites: Iterable[Site | None]) -> Guard | None:
    """What both hold, or None; and where that isn't known, the unknown guard."""
    first, second = (site.guards if site else None for site in sites)
    if first == () or second == ():
        return None
    if first is None or second is None:
        return 0, UNKNOWN_GUARD
    return next((guard for guard in first if any(excludes(guard[0], other) for other, _ in second)), None)


def excludes(one: int, other: int) -> bool:
    """Whether what holds these two guards comes one after the other. A lock for readers too has two guards, and the odd
    one is a reader's, which excludes no other reader."""
    return (one == ATOMIC or one % 2 == 0) if one == other else one ^ other == 1 and one > ATOMIC


def by_sites(races: Iterable[Race], places: Places | None) -> list[Sites]:
    """The groups of races whose accesses are of the same two sites."""
    found: dict[tuple[object, ...], Sites] = {}
    for race in races:
        first, second = (places.site(access.place) if places else None for access in race.accesses)
        kinds = race.first.kind, race.second.kind
        group = found.setdefault((kinds, first, second), Sites(kinds, (first, second)))
        group.locations.append(race.location)
    return list(found.values())


def by_lines(name: str, races: Iterable[Race], places: Places) -> list[Pair]:
    """The pairs of source positions of these races, each with the lesser position first."""
    groups = by_sites(races, places)
    positions = source_lines.positions_of(name, [code for group in groups for code in group.codes()])
    found = []
    for group in groups:
        leads = sorted((source_lines.leading(positions[code]), kind) for kind, code in zip(group.kinds, group.codes()))
        sides = [Side(kind, False, [Frame(kind, position, 1)]) for position, kind in leads]
        found.append(Pair(len(group.locations), group.locations[0], sides, Variable("memory")))
    return sorted(merged(found), key=Pair.key)
