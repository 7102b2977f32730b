"""The pipe in which a traced program says something of its run, as `messages` has it."""
from __future__ import annotations

import os
from _thread import allocate_lock, start_new_thread

TYPE_CHECKING = False
if TYPE_CHECKING:
    from collections.abc import Callable


class RecordPipe:
    """The lines, which are read as they come. One that can't wait for the report goes to a function at once."""

    END = "\nend\n"
    AT_ONCE = "stuck"

    def __init__(self, tell: Callable[[str], None]) -> None:
        self.tell, self.running = tell, allocate_lock()
        self.lines: list[str] = []
        self.out, self.into = os.pipe()

    def start(self) -> None:
        """A thread of Python's own module would have to wait for its import."""
        self.running.acquire()
        start_new_thread(self.run, ())

    def run(self) -> None:
        with open(self.out, encoding="utf-8", errors="replace") as file:
            for line in map(str.rstrip, file):
                if line == self.END.strip():
                    break
                if line.startswith(self.AT_ONCE):
                    try:
                        self.tell(line)
                    except Exception:
                        pass
                else:
                    self.lines.append(line)
        self.running.release()

    def end(self) -> list[str]:
        """All lines of the program, which has ended. A process that it made may still have the pipe."""
        os.write(self.into, self.END.encode())
        self.running.acquire()
        os.close(self.into)
        return self.lines
