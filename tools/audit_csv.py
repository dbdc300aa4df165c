"""For tools/report, tools/desk and tools/audit: tables, all of one form. A table is CSV (RFC 4180, but with LF) or JSON: a list of
objects with the same keys. Each row begins with the plan and its revision, so that tables of one kind can be put together. Numbers
have a point and no other signs; blocks and counties are texts of 15 and 5 digits; what isn't known is empty, and null in JSON."""
import csv, io, json
from decimal import Decimal

from audit import CLAUSES, decimal, not_met, result
from audit_more import numbered

PLAN, BEFORE = ('PLAN', 'REVISION'), ('PLAN_BEFORE', 'REVISION_BEFORE')
BLOCK, COUNTY = ('BLOCKID', 'COUNTY', 'COUNTY_NAME'), ('COUNTY', 'COUNTY_NAME')
HEADS = {
    'districts': (*PLAN, 'KIND', 'DISTRICT', 'POPULATION', 'IDEAL', 'DEVIATION', 'PERCENT', 'BEYOND', 'NAMED', 'PIECES'),
    'verdicts': (*PLAN, 'KIND', 'TEST', 'SECTION', 'TITLE', 'RESULT'),
    'changes': (*PLAN, *BEFORE, *BLOCK, 'DISTRICT_BEFORE', 'DISTRICT', 'POPULATION'),
    'counties': (*PLAN, *BEFORE, *COUNTY, 'DISTRICT_BEFORE', 'DISTRICT', 'BLOCKS', 'POPULATION'),
    'unassigned': (*PLAN, *BLOCK, 'POPULATION'),
    'pieces': (*PLAN, 'DISTRICT', 'PIECE', *BLOCK, 'POPULATION'),
    'plans': (*PLAN, 'TIME', 'KIND', 'DISTRICTS', 'RESULT', 'NOT_MET', 'LARGEST_PERCENT', 'MEAN_PERCENT', 'RANGE_PERCENT', 'BEYOND',
              'UNASSIGNED', 'PIECES', 'DIVIDED_COUNTIES', 'DIVIDED_CITIES', 'FAULT')}


def csv_text(kind, rows):
    with io.StringIO(newline='') as said:
        csv.writer(said, lineterminator='\n').writerows([HEADS[kind], *rows])
        return said.getvalue()


def json_text(kind, rows):
    """The same as JSON, a row on each line."""
    objects = [json.dumps(dict(zip(HEADS[kind], row)), default=float, ensure_ascii=False) for row in rows]
    return '[\n' + ',\n'.join(objects) + '\n]\n' if objects else '[]\n'


def number(value, places):
    """A fraction with so many places; none for none."""
    return None if value is None else Decimal(decimal(value, places).replace(',', '').replace('\u2212', '-'))


def pieces_of(report, ground=None):
    """How many pieces each district has; without the neighbours that isn't known of a district in several."""
    if ground is not None and ground.pairs is not None:
        several = {piece.district: of for piece, _, of in numbered(ground.pieces())}
    else:
        several = {gap['district']: None for gap in report.contiguity}
    empty = {gap['district'] for gap in report.contiguity if 'from' not in gap}
    return {district: 0 if district in empty else several.get(district, 1) for district in range(1, report.districts + 1)}


def yes(condition):
    return 'yes' if condition else 'no'


def districts_rows(plan, report, pieces):
    """Of each district the people, how far they are from the ideal, whether they are beyond a limit, whether the report names the
    district, and its pieces."""
    beyond, named = report.beyond(), report.named()
    for district, people in enumerate(report.populations, 1):
        yield (*plan, report.kind, district, people, number(report.ideal(), 2), number(people - report.ideal(), 2),
               number(report.percent(people), 4), yes(district in beyond), yes(district in named), pieces[district])


def verdicts_rows(plan, report):
    """The result of each test of such a plan."""
    for clause in CLAUSES:
        if report.kind in clause.kinds:
            section = None if clause.section == 'none' else clause.section
            yield (*plan, report.kind, clause.name, section, clause.title, result(report, clause))


def plans_row(plan, report, time=None, pieces=None):
    """A plan's row: its figures, and the names of the tests that it doesn't meet."""
    return (*plan, time, report.kind, report.districts, 'not met' if report.broken else 'met', ' '.join(report.broken) or None,
            number(report.farthest(), 4), number(report.mean_percent(), 4), number(report.spread(), 4), len(report.beyond()),
            report.unassigned, pieces, len(report.counties), len(report.cities), None)


def fault_row(plan, kind, districts, fault, time=None):
    """The row of a plan that wasn't audited."""
    return (*plan, time, kind, districts, 'refused', *[None] * 9, fault)


def where(block, names):
    """The columns of a block: its number, its county's, and that one's name."""
    return block, block[:5], names.counties.get(block[2:5])


def people_at(people, block):
    return None if people is None else people.get(block)


def unassigned_rows(plan, more):
    for block in more.ground.unassigned():
        yield (*plan, *where(block, more.names), people_at(more.ground.people, block))


def pieces_rows(plan, more):
    """Each block of each piece of a district that has several."""
    for piece, place, _ in numbered(more.ground.pieces()):
        for block in piece.blocks:
            yield (*plan, piece.district, place, *where(block, more.names), people_at(more.ground.people, block))


def changes_rows(plans, before, after, people, names):
    """Each block whose district is another one after it; a block without a district has none."""
    for block in sorted(before.keys() | after.keys()):
        old, new = before.get(block, 0), after.get(block, 0)
        if old != new:
            yield (*plans, *where(block, names), old or None, new or None, people_at(people, block))
