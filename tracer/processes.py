"""Other programs that a command starts, and files and a folder that are there for a while. Python's own modules for that
take longer to import than a compiler takes for a small source, or a short program runs."""
from __future__ import annotations

import os

TYPE_CHECKING = False
if TYPE_CHECKING:
    import signal
    from collections.abc import Iterable, Mapping
    from typing import BinaryIO
else:
    import _signal as signal

__all__ = ["USUAL", "Folder", "Process", "answer", "fix_addresses", "heard", "memory_file", "signal"]
# What this interpreter ignores.
USUAL = (signal.SIGPIPE, signal.SIGXFSZ)
ADDR_NO_RANDOMIZE = 0x0040000


class Process:
    """A program that was started."""

    def __init__(
        self,
        words: list[str],
        files: Mapping[int, int],
        environment: Mapping[str, str] = os.environ,
        blocked: Iterable[int] | None = None,
        usual: Iterable[int] = USUAL,
    ) -> None:
        """It gets these open files, by its own numbers for them, and what is inherited. Of signals these are blocked, or
        those that are blocked here; and these do what the system has them do."""
        mask = signal.pthread_sigmask(signal.SIG_BLOCK, ()) if blocked is None else blocked
        duplicates = [(os.POSIX_SPAWN_DUP2, file, number) for number, file in files.items()]
        self.pid = os.posix_spawnp(
            words[0], words, environment, file_actions=duplicates, setsigmask=mask, setsigdef=usual
        )
        self.returncode: int | None = None

    def wait(self) -> int:
        """The status, or minus the signal that has ended it."""
        return int(self.poll(0) or 0)

    def poll(self, options: int = os.WNOHANG) -> int | None:
        """The same, or None while it runs."""
        if self.returncode is None:
            ended, status = os.waitpid(self.pid, options)
            self.returncode = os.waitstatus_to_exitcode(status) if ended else None
        return self.returncode

    def send_signal(self, number: int) -> None:
        os.kill(self.pid, number)


def heard(words: list[str], number: int, files: Mapping[int, int]) -> tuple[int, str]:
    """The status of a command that gets these files, and what it writes to this descriptor."""
    out, into = os.pipe()
    try:
        process = Process(words, {number: into, **files})
    finally:
        os.close(into)
    with open(out, encoding="utf-8", errors="surrogateescape") as file:
        text = file.read()
    return process.wait(), text


def answer(*words: str) -> tuple[int, str]:
    """The status of a command, and what it answers. Nobody hears what it says beside."""
    with open(os.devnull, "r+b") as nothing:
        return heard([*words], 1, {0: nothing.fileno(), 2: nothing.fileno()})


def memory_file() -> BinaryIO:
    """A file that is on no disk."""
    return open(os.memfd_create("spbags"), "w+b")


def fix_addresses() -> None:
    """The programs that are started from now on have their memory at the same addresses, as far as the system lets
    us."""
    import _ctypes

    own = vars(_ctypes)
    personality, call = own["dlsym"](own["dlopen"](None, 0), "personality"), own["call_function"]
    call(personality, (call(personality, (0xFFFFFFFF,)) | ADDR_NO_RANDOMIZE,))


class Folder:
    """One that is there for a while."""

    def __enter__(self) -> str:
        self.name = os.path.join(os.environ.get("TMPDIR") or "/tmp", f"spbags-cc-{os.urandom(8).hex()}")
        os.mkdir(self.name, 0o700)
        return self.name

    def __exit__(self, *_: object) -> None:
        for folder, folders, files in os.walk(self.name, topdown=False):
            for name in files:
                os.unlink(os.path.join(folder, name))
            for name in folders:
                os.rmdir(os.path.join(folder, name))
        os.rmdir(self.name)
