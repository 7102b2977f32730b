"""The sources and packages of the distribution, by apt-get with this machine's list of hosts: the machine stays as it
is."""
import os
import random
import subprocess

from report.failure import Failure

# What an entry of that list is asked for besides packages.
SOURCES = {"MetaKey": "$(COMPONENT)/source/Sources", "flatMetaKey": "Sources", "ShortDescription": "Sources",
           "Description": "Sources"}


class Distribution:
    """What it fetches goes into a folder."""

    def __init__(self, folder):
        self.folder = os.path.abspath(folder)
        lists, cache = (os.path.join(self.folder, name) for name in ("lists", "cache"))
        for name in (f"{lists}/partial", f"{cache}/archives/partial"):
            os.makedirs(name, exist_ok=True)
        settings = {"APT::Sandbox::User": "root", "Dir::State::Lists": lists, "Dir::Cache": cache}
        settings |= {f"Acquire::IndexTargets::deb::Sources::{name}": value for name, value in SOURCES.items()}
        self.command = ["apt-get", "-qq", *(f"-o{name}={value}" for name, value in settings.items())]
        self.apt("update")

    def apt(self, *words):
        self.run(*self.command, *words)

    def run(self, *words):
        done = subprocess.run(words, cwd=self.folder, stdout=subprocess.DEVNULL, stderr=subprocess.PIPE, text=True)
        if done.returncode != 0:
            raise Failure(f"{' '.join(words[-3:])}: {done.stderr.strip().splitlines()[-1:]}")

    def files(self, start, end):
        return [os.path.join(self.folder, name) for name in sorted(os.listdir(self.folder))
                if name.startswith(start) and name.endswith(end)]

    def source(self, package, *patterns, into=None):
        """The folder with what its authors released, or the files of these patterns; packages within it stay packed."""
        self.apt("source", "--download-only", "--tar-only", package)
        [archive] = [name for end in (".orig.tar.gz", ".orig.tar.xz", ".orig.tar.bz2")
                     for name in self.files(package + "_", end)]
        folder = os.path.join(self.folder, into or package)
        os.makedirs(folder, exist_ok=True)
        self.run("tar", "xf", archive, "-C", folder, "--strip-components=1", *(("--wildcards", *patterns) if patterns
                                                                             else ()))
        return folder

    def installed(self, *packages):
        """The folder in which these packages are unpacked."""
        folder = os.path.join(self.folder, "installed")
        for package in packages:
            self.apt("download", package)
            self.run("dpkg", "-x", self.files(package + "_", ".deb")[-1], folder)
        return folder


def make(folder, *words, **settings):
    done = subprocess.run(words, cwd=folder, env={**os.environ, **settings}, stdout=subprocess.PIPE,
                          stderr=subprocess.STDOUT, text=True, errors="replace")
    if done.returncode != 0:
        raise Failure(f"{' '.join(words)}: " + " | ".join(done.stdout.strip().splitlines()[-3:]))


def clustalo(distribution, folder, cc, cxx, flags="-g -O2"):
    """Clustal Omega, compiled in this folder; the program."""
    folder = distribution.source("clustalo", into=folder)
    beside = os.path.join(distribution.installed("libargtable2-dev", "libargtable2-0"), "usr")
    make(folder, "./configure", f"CC={cc}", f"CXX={cxx}", f"CFLAGS={flags}", f"CXXFLAGS={flags}",
         f"CPPFLAGS=-I{beside}/include", f"LDFLAGS=-L{beside}/lib/x86_64-linux-gnu -L{beside}/lib")
    make(folder, "make", "-j4")
    return os.path.join(folder, "src", "clustalo")


LETTERS = "ACDEFGHIKLMNPQRSTVWY"


def sequences(families, members, length):
    """Families of sequences of proteins that differ in some letters, as FASTA: the same in each run."""
    chance = random.Random(1)
    for family in range(families):
        first = chance.choices(LETTERS, k=length)
        for member in range(members):
            letters = (chance.choice(LETTERS) if chance.random() < 0.1 * member else letter for letter in first)
            yield f">family{family}_{member}\n{''.join(letters)}\n"
