"""The standard input, which each run of a program gets from where it stands when the first one begins."""
from __future__ import annotations

import os
import stat

TYPE_CHECKING = False
if TYPE_CHECKING:
    import threading
    from typing import BinaryIO


def disk_file() -> BinaryIO:
    """A file without a name. Few systems need the module for that, which takes long."""
    try:
        return open(os.open(os.environ.get("TMPDIR") or "/tmp", os.O_TMPFILE | os.O_RDWR, 0o600), "w+b", buffering=0)
    except OSError:
        import tempfile

        return tempfile.TemporaryFile(buffering=0)  # type: ignore[return-value]


class Input:
    """What comes through a pipe is kept in a file without a name: as a whole where it ends soon, and else while the
    first run reads it."""

    PATIENCE = 0.3
    MOST = 1 << 26
    PIECE = 1 << 16

    def __init__(self) -> None:
        self.kept: BinaryIO | None = None
        self.stop: int | None = None
        self.thread: threading.Thread | None = None
        self.fault: OSError | None = None
        self.ended = True
        try:
            kind = os.fstat(0).st_mode
        except OSError:
            self.file = os.open(os.devnull, os.O_RDONLY)
            kind = os.fstat(self.file).st_mode
        else:
            self.file = 0
        self.start = os.lseek(0, 0, os.SEEK_CUR) if stat.S_ISREG(kind) else None
        if stat.S_ISFIFO(kind) or stat.S_ISSOCK(kind) or os.isatty(self.file):
            self.kept = disk_file()
            is_whole = not os.isatty(self.file) and self.keep(self.kept)
            self.file, self.start, self.ended = self.kept.fileno(), 0, is_whole

    def keep(self, kept: BinaryIO) -> bool:
        """Whether all of it came."""
        import select

        came = 0
        while came < self.MOST and select.select([0], [], [], self.PATIENCE)[0]:
            piece = os.read(0, self.PIECE)
            if not piece:
                return True
            came += kept.write(piece)
        return False

    def begin(self) -> int:
        """The descriptor for a run that begins."""
        if self.start is not None:
            os.lseek(self.file, self.start, os.SEEK_SET)
        if self.kept is None or self.ended:
            return os.dup(self.file)
        import threading

        self.ended = True
        given, to = os.pipe()
        stopped, self.stop = os.pipe()
        self.thread = threading.Thread(target=self.pump, args=(self.kept, to, stopped), daemon=True)
        self.thread.start()
        return given

    def pump(self, kept: BinaryIO, to: int, stopped: int) -> None:
        import select

        try:
            while piece := os.read(self.file, self.PIECE):
                write_all(to, piece)
            while stopped not in select.select([0, stopped], [], [])[0] and (piece := os.read(0, self.PIECE)):
                kept.write(piece)
                write_all(to, piece)
        except BrokenPipeError:
            pass
        except OSError as error:
            self.fault = error
        os.close(to)

    def end(self) -> None:
        if self.thread and self.stop is not None:
            os.close(self.stop)
            self.thread.join()
            self.thread = None
        if self.fault:
            raise self.fault


def write_all(to: int, piece: bytes) -> None:
    while piece:
        piece = piece[os.write(to, piece) :]
