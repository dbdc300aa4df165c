"""The crates of the repository and the libraries that each stands on, as crates.txt has them."""
import os

ROOT = os.path.dirname(os.path.dirname(os.path.abspath(__file__)))


def stands_on():
    """The libraries that each crate names."""
    found = {}
    with open(f'{ROOT}/crates.txt') as file:
        for line in file:
            name, _, libraries = line.partition(':')
            if name.strip() and not name.startswith('#'):
                found[name.split()[0]] = libraries.split()
    return found


def below(name, libraries):
    """The repository's crates under one, each once, those that others stand on first."""
    found = {}

    def add(crate):
        for library in libraries[crate]:
            if library in libraries and library not in found:
                add(library)
                found[library] = None

    add(name)
    return list(found)
