"""What a terminal shows of a long run: a line on standard error, below what the program prints, which goes again."""
from __future__ import annotations

import os
import time
from _thread import allocate_lock, start_new_thread

TYPE_CHECKING = False
if TYPE_CHECKING:
    import mmap

# The page that the hooks write: how many spawns and accesses the detector inside has taken, and how many locations
# have raced.
TAKEN = "<QQQ"
# So many seconds something is done before a line says so, and between two lines.
PATIENCE, STEP = 2, 1
# Makes a line below, remembers the place, and goes there; the rest is the same way back. Behind the program's own text
# nothing else is erased.
ERASE, DOWN, BACK = "\033[J", "\033D\033M\0337\r\n\033[2m", "\033[0m\0338"


def is_wanted() -> bool:
    return os.isatty(2) and os.environ.get("TERM") != "dumb"


def spelled(number: int) -> str:
    if number < 1e6:
        return f"{number:,}"
    return f"{number / 1e6:.1f} million" if number < 1e7 else f"{number / 1e6:,.0f} million"


class Progress:
    """The line; without a terminal nothing comes of it."""

    def __init__(self) -> None:
        self.lock, self.began, self.is_shown = allocate_lock(), 0.0, False
        self.what: str | None = None
        self.with_races = ""
        self.is_running = False
        # The file that the hooks write, and its page.
        self.file: int | None = None
        self.page: mmap.mmap | None = None
        if is_wanted():
            import mmap

            self.file = os.memfd_create("spbags")
            os.truncate(self.file, mmap.PAGESIZE)
            self.page = mmap.mmap(self.file, mmap.PAGESIZE)

    def begin(self, what: str, with_races: str = "", races: int = 0) -> None:
        """What is done now, and what is to be said behind it where there are races; and as many as are known. The first
        call makes a thread that has this one's signals."""
        if not self.page:
            return
        self.erase()
        import struct

        with self.lock:
            struct.pack_into(TAKEN, self.page, 0, 0, 0, races)
            self.what, self.with_races, self.began = what, with_races, time.monotonic()
        if not self.is_running:
            self.is_running = True
            start_new_thread(self.run, (self.page,))

    def erase(self) -> None:
        """Another line comes."""
        with self.lock:
            self.write("")

    def end(self) -> None:
        """Nothing is done any more that takes long."""
        with self.lock:
            self.what = None
            self.write("")

    def run(self, page: mmap.mmap) -> None:
        import struct

        while True:
            time.sleep(STEP)
            with self.lock:
                seconds = time.monotonic() - self.began
                if self.what and seconds >= PATIENCE:
                    _, accesses, races = struct.unpack_from(TAKEN, page)
                    parts = [f"{seconds:.0f} s"]
                    parts += [f"{spelled(accesses)} accesses"] if accesses > 0 else []
                    parts += [f"{spelled(races)} race{'' if races == 1 else 's'}"] if accesses + races > 0 else []
                    self.write(f"{self.what}{self.with_races if races > 0 else ''}: {', '.join(parts)}")

    def write(self, line: str) -> None:
        """This line in place of the one that is shown, or none."""
        try:
            shown = f"{DOWN}{line[:(os.get_terminal_size(2).columns or 80) - 1]}{BACK}" if line else ""
            if shown or self.is_shown:
                os.write(2, f"{ERASE}{shown}".encode())
        except OSError:
            pass
        self.is_shown = bool(line)
