"""The report of `spbags-run`."""
from __future__ import annotations

TYPE_CHECKING = False
if TYPE_CHECKING:
    from report.outcome import Unseen
    from report.pairs import Pair
    from report.suppressions import Used

# Of Cilk, of oneTBB and of C++: what a child is one of, where a report suggests nothing of OpenMP.
NO_OPENMP = set(
    "cilk_for parallel_for parallel_for_each parallel_reduce parallel_scan parallel_invoke parallel_sort task_group "
    "algorithm".split()
)
# The name of what both accesses hold, where that isn't known.
UNKNOWN_GUARD = "unknown"
# What stands for a guard where each thread has the variable for itself.
THREAD_LOCAL = "thread-local"


class Count:
    def __init__(self, pairs: int, races: int) -> None:
        self.pairs, self.races = pairs, races


class Ended:
    """How the program ended, and whether the run was whole."""

    def __init__(self, status: int | None, signal: int | None, complete: bool) -> None:
        self.status, self.signal, self.complete = status, signal, complete


class Report:
    """What a run of a program came to: the pairs that are shown, and how many more there are, each with its races. How
    many spawns and accesses there were isn't known of a run without the detector inside."""

    def __init__(
        self,
        command: list[str],
        unit: int,
        ended: Ended,
        spawns: int | None,
        accesses: int | None,
        races: int,
        pairs: list[Pair],
        not_shown: Count,
        suppressed: Count,
        guarded: Count,
        without_stacks: int,
        notes: list[str],
        incomplete: list[str],
        unseen: list[Unseen],
        suppressions: list[Used],
    ) -> None:
        self.command, self.unit, self.ended = command, unit, ended
        self.spawns, self.accesses, self.races = spawns, accesses, races
        self.pairs, self.not_shown, self.suppressed, self.guarded = pairs, not_shown, suppressed, guarded
        self.without_stacks, self.notes, self.incomplete = without_stacks, notes, incomplete
        self.unseen, self.suppressions = unseen, suppressions


def count(pairs: list[Pair]) -> Count:
    return Count(len(pairs), sum(pair.races for pair in pairs))
