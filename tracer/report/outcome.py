"""What came of a run of a traced program."""
from __future__ import annotations

from processes import signal
from report.messages import Record, record_of, texts_of, with_lines

TYPE_CHECKING = False
if TYPE_CHECKING:
    from typing import BinaryIO


class Unseen:
    """A function that nothing is known of, the library or the file that has it, and how often it was called."""

    def __init__(self, function: str, library: str, calls: int) -> None:
        self.function, self.library, self.calls = function, library, calls


def unseen_of(records: list[Record]) -> list[Unseen]:
    named = [record for record in records if record.name == "unseen"]
    if not named:
        return []
    from report import source_lines

    shown = source_lines.demangled(record.text for record in named)
    return [Unseen(shown[record.text], " ".join(record.words[1:]), int(record.words[0])) for record in named]


class Run:
    """The program's status, what it said in records, and the file with the answer."""

    def __init__(self, status: int, cut: str | None, lines: list[str], answer: BinaryIO, program: str) -> None:
        records = [record_of(line) for line in lines]
        # Why spbags-run ended it, where it did.
        self.status, self.cut, self.answer = status, cut, answer
        self.named = {record.name: record for record in reversed(records)}
        # Why there is no answer; and the same where nobody read the trace any more.
        self.closed = [record.text for record in records if record.name == "fault" and record.words == ["closed"]]
        self.faults = with_lines(program, texts_of(records, "fault"))
        # What wasn't seen or modelled, in sentences and functions; and of which races some may be none.
        self.incomplete, self.waits, self.others, self.seeming = (
            with_lines(program, texts_of(records, name)) for name in ("incomplete", "waits", "others", "seeming")
        )
        self.constructs = [word for record in records if record.name == "others" for word in record.words]
        self.unseen = unseen_of(records)

    def has_races(self) -> bool:
        self.answer.seek(0)
        return self.answer.readline() != b"races 0\n"

    def lines(self, keepends: bool = False) -> list[str]:
        """Those of the answer."""
        self.answer.seek(0)
        return self.answer.read().decode(errors="replace").splitlines(keepends)

    def words(self, name: str) -> list[str]:
        """Those of the record with this name, if it is there."""
        return self.named[name].words if name in self.named else []

    def is_whole(self) -> bool:
        return self.status >= 0 and "end" not in self.named and not self.cut

    def ending(self) -> str:
        """Why a run isn't whole."""
        if self.cut:
            return self.cut
        if self.status < 0:
            return f"the program ended by signal {-self.status} ({signal.strsignal(-self.status)})"
        return self.named["end"].text
