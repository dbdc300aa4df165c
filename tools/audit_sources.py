"""For tools/report: where a report comes from, with its plan, its neighbours and its people: from files, or from a served desk."""
import os, re, sys

from audit import LARGEST, Refused, within
from header_file import people_of
from plan_pieces import agree, ground_of, read_file, read_neighbours, read_plan
from served import Desk, districts, is_name, people


def bytes_of(path):
    """The bytes of a report."""
    try:
        if path == '-':
            return sys.stdin.buffer.read(LARGEST + 1)
        with open(path, 'rb') as file:
            return file.read(LARGEST + 1)
    except (OSError, ValueError):
        raise Refused('Unreadable') from None


def is_revision(word):
    return word is not None and re.match(r'[0-9]{1,5}\Z', word) is not None


def near_of(path):
    """The blocks and pairs of a neighbour file, if one is named."""
    if path is None:
        return None
    with within(path):
        return read_neighbours(read_file(path))


def plan_in(path):
    with within(path):
        return read_plan(read_file(path))


class Files:
    """A report's file, and those of what was audited, as far as they are named."""
    title, source, address = 'Audit of a plan', None, None

    def __init__(self, given):
        self.given = given
        self.place = 'standard input' if given.file == '-' else given.file
        self.name = os.path.basename(self.place)

    def plan_of(self):
        """The plan and its revision, as tables name them: the file that is known, and no revision."""
        return os.path.basename(self.given.plan) if self.given.plan else self.name, None

    def before_of(self):
        return os.path.basename(self.given.before), None

    def report(self):
        with within(self.place):
            return bytes_of(self.given.file)

    def texts(self):
        """Texts beside the report that are no files here."""
        return ()

    def people(self):
        return people_of(self.given.geo, self.given.seg1) if self.given.geo else None

    def ground(self, report):
        """The plan with its neighbours, which have to be those of the report."""
        if self.given.plan is None:
            return None
        ground = ground_of(plan_in(self.given.plan), near_of(self.given.gal), self.people())
        agree(ground, report)
        return ground

    def plans(self):
        """The districts in the plan before and in the plan, and the people."""
        before, after = (plan_in(path) for path in (self.given.before, self.given.plan))
        return before, after, self.people()


class AtDesk:
    """A revision of a served desk, which is the last one where none is named; so are those of its companions."""
    name, place = 'the report', None

    def __init__(self, given):
        if not is_name(given.plan):
            raise Refused('BadName', 2)
        if not all(word is None or is_revision(word) for word in (given.revision, given.before)):
            raise Refused('BadNumber', 2)
        beside = {kind: self.words(word) for kind, word in (('senate', given.senate), ('congress', given.congress)) if word is not None}
        self.given, self.desk, self.listed = given, Desk(given.desk, given.netrc, given.ca), None
        self.plan, self.number = given.plan, int(given.revision) if given.revision else self.last(given.plan)
        self.beside = {kind: (name, int(number) if number else self.last(name)) for kind, (name, number) in beside.items()}
        names = ' and '.join(f'{name}, revision {number}' for name, number in self.beside.values())
        self.title = f'{self.plan}, revision {self.number}' + (f' audited with {names}' if names else '')
        self.source = f'{given.desk}: {self.title}'
        self.address = f'{given.desk.rstrip("/")}/plans/{self.plan}/revisions/{self.number}'

    def plan_of(self):
        return self.plan, self.number

    def before_number(self):
        return self.number - 1 if self.given.before is None else int(self.given.before)

    def before_of(self):
        return self.plan, self.before_number()

    def words(self, word):
        """A companion's name and its revision, as far as it is named."""
        name, colon, number = word.partition(':')
        if not is_name(name) or colon and not is_revision(number):
            raise Refused('BadName', 2)
        return name, number

    def last(self, name):
        if self.listed is None:
            self.listed = {plan: revisions for plan, _, _, revisions in self.desk.plans()}
        if name not in self.listed:
            raise Refused(f'NoPlan {name}', 4)
        if not self.listed[name]:
            raise Refused(f'NoRevision {name}', 4)
        return self.listed[name]

    def report(self):
        return self.desk.audit(self.plan, self.number, **{kind: f'{name}:{number}' for kind, (name, number) in self.beside.items()})

    def texts(self):
        """The revision and those beside it, as the desk gives them."""
        for name, number in ((self.plan, self.number), *self.beside.values()):
            yield f'{name}, revision {number}, as the desk gives it', self.desk.text(name, number)

    def people(self):
        return people(self.desk.blocks())

    def districts(self, number):
        """The district of each block in a revision; 0 is none, and revision 0 has no district."""
        found = districts(self.desk.text(self.plan, number)) if number else {}
        return {block: int(code) if code.isdigit() else 0 for block, code in found.items()}

    def ground(self, report):
        """The plan with its people and the neighbours that are named, where somebody asks for blocks."""
        if not (report.unassigned or self.given.gal or self.given.csv in ('unassigned', 'pieces')):
            return None
        ground = ground_of(self.districts(self.number), near_of(self.given.gal), self.people())
        agree(ground, report)
        return ground

    def plans(self):
        return self.districts(self.before_number()), self.districts(self.number), self.people()
