"""The folder from which a report names files."""
import os


class Root:
    folder = os.curdir
