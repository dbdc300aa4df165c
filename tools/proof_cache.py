"""What tools/first_build proved on this machine and keeps in ~/.cache/plandesk/built: each library, and the program, under a sum of all
that its proof read. Also the sum of the sources, and the note beside a program that was built here, which says what it was built of.
"""
import hashlib, json, os, subprocess

from crate_lines import ROOT, below, stands_on
from prover import entry, read, sum_of_crate, sum_of_kit

PROGRAM = 'plandesk'
# the program that is built here, and what it was built of
BUILT = f'{ROOT}/crates/{PROGRAM}/out/{PROGRAM}'
NOTE = f'{BUILT}.sources'


def sum_of_sources():
    """The sum of the sources that the program is built of, by the one script that defines it."""
    return subprocess.run([f'{ROOT}/tools/sources_sum'], check=True, stdout=subprocess.PIPE, text=True).stdout.strip()


def digest_of(path):
    return hashlib.sha256(read(path)).hexdigest()


def lines_of(path):
    """The values of a file of lines `KEY VALUE`, by their keys."""
    pairs = (line.partition(' ') for line in read(path).decode(errors='replace').splitlines() if not line.startswith('#'))
    return {key: value.strip() for key, _, value in pairs}


def note(sources):
    """Writes beside the program that was built here of which sources it is."""
    with open(f'{NOTE}.new', 'w') as file:
        file.write(f'sources {sources}\nprogram {digest_of(BUILT)}\n')
    os.replace(f'{NOTE}.new', NOTE)


def sum_of_made(name, folder):
    """A sum of what was made of a crate: of the program, or of a library's format, which has a sum of its files."""
    made = read(f'{folder}/{PROGRAM}' if name == PROGRAM else f'{folder}/{name}.rlib/format')
    return hashlib.sha256(made).hexdigest() if made else None


class ProofCache:
    """The crates that the program stands on, those below others first, and where each lies that was proved as it is now."""

    def __init__(self):
        self.libraries, self.kit = stands_on(), sum_of_kit()
        self.names = [*below(PROGRAM, self.libraries), PROGRAM]
        # where each crate lies that is proved, and how many functions it has
        self.places, self.functions = {}, {}

    def place(self, library):
        return f'{self.places[library]}/{library}.rlib'

    def key(self, name):
        return sum_of_crate(name, self.libraries, self.kit, self.place)

    def has(self, name, key):
        """Whether it has what is made of exactly what is there now."""
        place = entry(name, key)
        try:
            known = json.loads(read(f'{place}/made.json'))
            if known['key'] != key or known['made'] != sum_of_made(name, place):
                return False
        except (ValueError, KeyError):
            return False
        self.places[name], self.functions[name] = place, known['functions']
        os.utime(place)
        return True

    def program(self):
        """The program, if it and all that it stands on were proved as they are now."""
        for name in self.names:
            if not self.has(name, self.key(name)):
                return None
        return f'{self.places[PROGRAM]}/{PROGRAM}'
