"""For tools/desk: with which revisions a plan is audited."""
import re

from audit import Refused
from folder import read_file

# the kinds of plans that are audited with a companion of this kind
TAKES = {'senate': ('house',), 'congress': ('house', 'senate')}


def addressed(word, plans, place, status=2):
    """A plan and its revision, by a word as NAME or NAME:REVISION; the last one where none is named. The plans are known by their
    names, each by kind, districts and revisions."""
    name, colon, number = word.partition(':')
    last = plans[name][2] if name in plans else 0
    if colon and not re.match(r'[0-9]{1,5}\Z', number):
        raise Refused(f'BadRevisionWord {place}', status)
    chosen = int(number) if colon else last
    if not 1 <= chosen <= last:
        raise Refused(f'NoSuchRevision {place}', status)
    return name, chosen


class Companions:
    """What is named on the command line for all plans, and in a file for some."""

    def __init__(self, plans, senate=None, congress=None, path=None):
        self.plans, self.pairs = plans, {}
        self.all = {kind: self.companion(word, kind, f'--{kind}', 2)
                    for kind, word in (('senate', senate), ('congress', congress)) if word is not None}
        if path is not None:
            self.read(path)

    def companion(self, word, kind, place, status):
        """A revision of a plan of this kind."""
        name, number = addressed(word, self.plans, place, status)
        if self.plans[name][0] != kind:
            raise Refused(f'WrongKind {place}', status)
        return name, number

    def read(self, path):
        """A line for each pair: a plan, and the revision with which it is audited. Empty lines and those that begin with # count
        for nothing."""
        data = read_file(path)
        if data is None:
            raise Refused('Unreadable', place=path)
        for number, line in enumerate(data.decode('utf-8', 'replace').splitlines(), 1):
            words = line.split()
            if words and not words[0].startswith('#'):
                self.pair(words, f'line {number}')

    def pair(self, words, place):
        if len(words) != 2:
            raise Refused(f'BadPairs {place}')
        plan = words[0]
        name, number = addressed(words[1], self.plans, place, 3)
        kind = self.plans[name][0]
        if plan not in self.plans:
            raise Refused(f'NoSuchPlan {place}')
        if self.plans[plan][0] not in TAKES.get(kind, ()):
            raise Refused(f'WrongKind {place}')
        if (plan, kind) in self.pairs:
            raise Refused(f'TwicePaired {place}')
        self.pairs[plan, kind] = name, number

    def of(self, plan):
        """The companions of a plan, by their kinds."""
        found = {kind: self.pairs.get((plan, kind), self.all.get(kind)) for kind in TAKES if self.plans[plan][0] in TAKES[kind]}
        return {kind: address for kind, address in found.items() if address is not None}
