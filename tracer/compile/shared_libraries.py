"""Shared libraries of a traced program. The file of one has, beside what the compiler makes of it, the objects that it
is made of and the names of the libraries that it needs. A program that is linked with it gets these objects as its
own."""
from __future__ import annotations

import os

from compile.link_inputs import Part
from compile.options import fail, run, text_of, write

OBJECTS, NEEDED = ".spbags_objects", ".spbags_needed"


def keep(library: str, parts: list[Part], folder: str) -> None:
    """Adds to a library that was linked what it is made of."""
    names: list[str] = []
    for part in parts:
        if not part.is_shared and not part.is_system:
            for text in part.texts():
                names.append(os.path.join(folder, f"{len(names)}-{os.path.basename(part.member or part.file)}"))
                with open(names[-1], "wb") as file:
                    file.write(text)
    archive, needed = os.path.join(folder, "objects.a"), os.path.join(folder, "needed")
    run("ar", "qc", archive, *names)
    write(needed, "".join(os.path.abspath(part.file) + "\n" for part in parts if part.is_shared))
    run("objcopy", f"--add-section={OBJECTS}={archive}", f"--add-section={NEEDED}={needed}", library)


def has_objects(library: str) -> bool:
    try:
        with open(library, "rb") as file:
            return OBJECTS.encode() in file.read()
    except OSError:
        return False


class Libraries:
    """Those of one link: the archives of their objects, each behind those of the libraries that it needs; and the other
    libraries that they need."""

    def __init__(self, folder: str) -> None:
        self.folder = folder
        self.seen: set[str] = set()
        self.names: set[str] = set()
        self.archives: list[str] = []
        self.others: list[str] = []

    def add(self, library: str) -> None:
        self.names.add(os.path.basename(library))
        real = os.path.realpath(library)
        if real in self.seen:
            return
        self.seen.add(real)
        archive = os.path.join(self.folder, f"{len(self.seen)}-{os.path.basename(library)}")
        needed = archive + ".needed"
        dumped = [f"--dump-section={OBJECTS}={archive}", f"--dump-section={NEEDED}={needed}"]
        run("objcopy", *dumped, library, archive + ".copy")
        for other in text_of(needed).splitlines():
            self.need(self.found(other, library))
        self.archives.append(archive)

    def need(self, library: str) -> None:
        if has_objects(library):
            self.add(library)
        elif library not in self.others:
            self.others.append(library)

    @staticmethod
    def found(library: str, needs_it: str) -> str:
        """A library where it was, or else beside the one that needs it."""
        for name in (library, os.path.join(os.path.dirname(needs_it), os.path.basename(library))):
            if os.path.exists(name):
                return name
        return fail(f"{needs_it} needs {library}, which isn't found")

    def items(self, items: list[str]) -> list[str]:
        """The words of a link with the objects in place of the libraries. They come first, as a library begins before
        the program that needs it."""
        rest: list[str] = []
        words = iter(items)
        for word in words:
            both = [word, next(words, "")] if word == "-l" else [word]
            if not self.is_named("".join(both)):
                rest += both
        own = ["-Wl,--whole-archive", *self.archives, "-Wl,--no-whole-archive"]
        return [*own, *rest, "-Wl,--push-state,--as-needed", *self.others, "-Wl,--pop-state"]

    def is_named(self, word: str) -> bool:
        if word.startswith("-l"):
            name = word[3:] if word.startswith("-l:") else f"lib{word[2:]}.so"
            return name in self.names
        return not word.startswith("-") and os.path.realpath(word) in self.seen
