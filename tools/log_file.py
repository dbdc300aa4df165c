"""For tools/desk: the log of a server (`serve --log`), and the times that it gives to plans and revisions.

A time is given to a revision only if the log accounts for the plan up to its last revision: a plan that was deleted and made again
has no revision's time of the one before, and after lines that were lost nothing before them counts.
"""
import re
from collections import deque
from dataclasses import dataclass

from audit import Refused

STAMP = r'[0-9]{4}-[0-9]{2}-[0-9]{2}T[0-9]{2}:[0-9]{2}:[0-9]{2}Z '
NAME = r'[A-Za-z0-9._-]{1,64}'
LINE = re.compile(rf'(?P<time>{STAMP})?(?P<words>.*)\Z')
PLAN = re.compile(rf'plan (?P<plan>{NAME}) (?:(?P<created>created)|(?P<deleted>deleted)|revision (?P<revision>[0-9]{{1,5}}) of [0-9]+ blocks|'
                  rf'forked from (?P<source>{NAME}) revision (?P<of>[0-9]{{1,5}}))\Z')
OTHER = re.compile(r'connection [0-9]+: |served: |free [0-9]+ pages|store NotAStore')
LOST = re.compile(r'[0-9]+ lines were dropped\Z')
# a feed has at most this number of changes, the last ones
MOST = 100


@dataclass(frozen=True)
class Change:
    """A line of a plan: its time, if the log has one, what happened, and the plan's revision that came by it."""
    time: str
    plan: str
    what: str
    revision: int = None


class Log:
    """What the lines say of plans: the times of the revisions that are accounted for, and where forks came from."""

    def __init__(self, paths=()):
        self.times, self.sources, self.changes = {}, {}, deque(maxlen=MOST)
        for path in paths:
            self.read(path)

    def read(self, path):
        try:
            with open(path, 'rb') as file:
                for line in file:
                    # a last line without its end is still being written
                    if line.endswith(b'\n'):
                        self.take(line[:-1].decode('latin-1'))
        except (OSError, ValueError):
            raise Refused('Unreadable', place=path) from None

    def take(self, line):
        """Takes a line. One in which another begins was torn by a disk that was full."""
        begins = [match.start() for match in re.finditer(STAMP, line)]
        if len(begins) > 1:
            self.lose()
            line = line[begins[-1]:]
        match = LINE.match(line)
        time, words = match['time'] and match['time'].strip(), match['words']
        found = PLAN.match(words)
        if found:
            self.change(time, found)
        elif LOST.search(words) or not (OTHER.match(words) or time and not words.startswith('plan ')):
            self.lose()

    def lose(self):
        """Lines were lost: a plan may have been deleted and made again by them."""
        self.times, self.sources = {}, {}

    def change(self, time, found):
        plan, revision = found['plan'], None
        if found['deleted']:
            self.times.pop(plan, None)
            self.sources.pop(plan, None)
            what = 'deleted'
        elif found['created']:
            self.times[plan], what = {}, 'created'
            self.sources.pop(plan, None)
        elif found['source']:
            what, revision = f'forked from {found["source"]}, revision {found["of"]}', 1
            self.times[plan], self.sources[plan] = {1: time}, (found['source'], int(found['of']))
        else:
            revision, what = int(found['revision']), f'revision {found["revision"]}'
            self.follow(plan, revision, time)
        if time is not None:
            self.changes.append(Change(time, plan, what, revision))

    def follow(self, plan, revision, time):
        """A revision after the one before it; otherwise lines of this plan are missing, and nothing before them counts."""
        known = self.times.get(plan)
        if known is None or max(known, default=0) != revision - 1:
            self.times[plan] = known = {}
            self.sources.pop(plan, None)
        known[revision] = time

    def times_of(self, plan, revisions):
        """The times of a plan that has so many revisions now."""
        known = self.times.get(plan, {})
        return known if max(known, default=0) == revisions else {}

    def source_of(self, plan, revisions):
        """The plan and the revision from which it was forked, if that is known."""
        return self.sources.get(plan) if self.times_of(plan, revisions) else None
