"""The objects that links share, and the compilers' plugins: the first command that needs one makes it. Beside an
installed tracer stand those that `./install` has brought, or that were made ahead for all users; what a command makes
goes to its user's cache. In the repository all stand beside the tracer, if that folder can be written."""
from __future__ import annotations

import os
from collections.abc import Callable, Iterable

from installation import HERE, IS_INSTALLED

BESIDE = os.path.join(HERE, "out")
# Who has no home has no folder of that name in the current one.
HOME = os.path.join("/", os.path.expanduser("~"))
CACHE = os.path.join(os.environ.get("XDG_CACHE_HOME") or os.path.join(HOME, ".cache"), "spbags")


def folder(ahead: bool = False) -> str:
    """Where what is made is kept, ahead for all users or by the way."""
    is_ours = os.access(BESIDE if os.path.exists(BESIDE) else HERE, os.W_OK)
    return BESIDE if is_ours and (ahead or not IS_INSTALLED) else CACHE


def digest(about: object, files: Iterable[str]) -> str:
    """A hash of what something is made of: what there is to say about it, and these files."""
    import hashlib

    found = hashlib.sha256(repr(about).encode())
    for name in files:
        with open(name, "rb") as file:
            found.update(file.read())
    return found.hexdigest()[:24]


class Kept:
    def __init__(self, say: Callable[[str], object], fail: Callable[[str], object], ahead: bool = False) -> None:
        """Ahead of all links it is an error if an object can't be kept."""
        self.say, self.fail, self.ahead, self.folder = say, fail, ahead, folder(ahead)

    def file(self, name: str, make: Callable[[], str], doing: str = "") -> str:
        """The file of this name, which has a hash. Where none is kept `make` makes one; what takes long has words for
        it."""
        return self.found(name) or self.made(name, make, doing)

    def made(self, name: str, make: Callable[[], str], doing: str) -> str:
        import contextlib
        import fcntl

        try:
            os.makedirs(self.folder, exist_ok=True)
            lock = open(os.path.join(self.folder, "lock"), "w")
        except OSError as error:
            self.cannot(error, doing)
            return make()
        # One process makes it while others wait, up to its end, however that comes. Not every file system has locks.
        with lock:
            with contextlib.suppress(OSError):
                fcntl.flock(lock, fcntl.LOCK_EX)
            return self.found(name) or self.keep(name, make, doing)

    def found(self, name: str) -> str | None:
        names = (os.path.join(folder, name) for folder in (BESIDE, self.folder))
        return next((name for name in names if os.path.exists(name)), None)

    def cannot(self, error: OSError, doing: str) -> None:
        why = (
            f"{self.folder} can't be written ({error.strerror}); the environment variable XDG_CACHE_HOME names another "
            "folder"
        )
        if self.ahead:
            self.fail(why)
        if doing:
            self.say(f"{doing}, as in each link: {why}")

    def keep(self, name: str, make: Callable[[], str], doing: str) -> str:
        """Makes it, and copies it to where others find it whole or not at all."""
        import contextlib
        import shutil

        if doing:
            self.say(f"{doing}, once")
        made, kept = make(), os.path.join(self.folder, name)
        copy = f"{kept}.{os.getpid()}"
        try:
            shutil.copyfile(made, copy)
            os.replace(copy, kept)
        except OSError as error:
            with contextlib.suppress(OSError):
                os.unlink(copy)
            self.cannot(error, doing)
            return made
        return kept
