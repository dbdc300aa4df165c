"""For tools/desk and tools/audit: an index of plans, in several orders, with what each one doesn't meet, and tables of all plans."""
from dataclasses import dataclass
from fractions import Fraction
from html import escape

from audit import CLAUSES, KINDS, Report, count, decimal, grouped, not_met
from audit_csv import csv_text, districts_rows, fault_row, json_text, plans_row, verdicts_rows
from page_parts import element, link, name, navigation, table


@dataclass(frozen=True)
class Entry:
    """A plan of the index: its name, its revision and its kind, the file of its page, its report, the pieces of each district, what is
    said below its name, when the revision came, and the fault of a plan that was not audited, with what to do. Each is none if it is
    not known."""
    plan: str
    revision: int = None
    kind: str = None
    districts: int = None
    page: str = None
    report: Report = None
    pieces: dict = None
    notes: tuple = ()
    time: str = None
    fault: str = None
    words: str = None

    def address(self):
        return self.plan, self.revision

    def all_pieces(self):
        """The number of pieces of all districts."""
        return None if self.pieces is None or None in self.pieces.values() else sum(self.pieces.values())


def spread_of(report):
    """The overall range, which is beyond all others if a district has nobody."""
    spread = report.spread()
    return Fraction(10 ** 12) if spread is None else spread


# the orders of an index: the file, the words of the link, and the value of which the largest is first, or none for the plans' own order
ORDERS = (
    ('index.html', 'plan', None),
    ('index-by-result.html', 'tests not met', lambda report: len(report.broken)),
    ('index-by-deviation.html', 'largest deviation', lambda report: abs(report.farthest() or 0)),
    ('index-by-mean.html', 'mean deviation', lambda report: report.mean_percent() or 0),
    ('index-by-range.html', 'overall range', spread_of),
    ('index-by-pieces.html', 'districts in several pieces', lambda report: len(report.contiguity)),
    ('index-by-counties.html', 'divided counties', lambda report: len(report.counties)))


def ordered(entries, value):
    """The entries with the largest values first; those that weren't audited are last."""
    if value is None:
        return entries
    return sorted(entries, key=lambda entry: (entry.report is None, 0 if entry.report is None else -value(entry.report)))


def percent(value, sign=False):
    return 'none' if value is None else f'{decimal(value, sign=sign)} %'


def pieces_cell(entry):
    """How many pieces the districts have, or how many districts are not in one."""
    pieces = entry.all_pieces()
    return f'{count(len(entry.report.contiguity), "district")} not in one' if pieces is None else grouped(pieces)


def result_cell(entry):
    """The verdict, and which tests are not met."""
    if entry.report is None:
        return element('span', escape(entry.fault or 'no revision'), class_='is-not-met' if entry.fault else None)
    broken, asked = len(entry.report.broken), len(entry.report.asked())
    unjudged = element('small', 'Nesting was not judged: no senate plan was given') if entry.report.not_asked else ''
    if not broken:
        return element('span', f'all {asked} tests met', class_='is-met') + unjudged
    missing = '; this may come of the blocks without a district' if entry.report.of_missing() else ''
    return element('span', 'not met: ' + escape(', '.join(not_met(entry.report))), class_='not-met') + \
        element('small', f'{broken} of {asked} tests{missing}') + unjudged


def plan_cell(entry):
    shown = name(entry.plan) if entry.revision is None else f'{name(entry.plan)} {element("small", f"revision {entry.revision}")}'
    said = element('a', shown, href=f'./{entry.page}') if entry.page else shown
    return said + ''.join(element('small', note) for note in entry.notes)


def kind_cell(entry):
    if entry.kind is None:
        return ''
    return f'{KINDS.get(entry.kind, escape(entry.kind))}, {count(entry.districts, "district")}'


def time_part(time):
    """A time as people read it; one that isn't known is said to be so."""
    if time is None:
        return 'unknown'
    date, _, clock = time.partition('T')
    return element('time', f'<span>{date}</span> <span>{clock.replace("Z", " UTC")}</span>', datetime=time)


def figures_cells(entry):
    report = entry.report
    if report is None:
        return '', '', '', '', '', ''
    return (percent(report.farthest(), True), percent(report.mean_percent()), percent(report.spread()), pieces_cell(entry),
            grouped(len(report.counties)), grouped(report.unassigned))


def plans_table(entries, timed, caption):
    """The table of an index."""
    heads = [('Plan', False), ('Kind', False), *([('When', False)] if timed else []), ('Result', False), ('Largest deviation', True),
             ('Mean deviation', True), ('Overall range', True), ('Pieces', True), ('Divided counties', True), ('Without a district', True)]
    rows = [(plan_cell(entry), kind_cell(entry), *([time_part(entry.time) if entry.revision else ''] if timed else []),
             result_cell(entry), *figures_cells(entry))
            for entry in entries]
    return table(caption, heads, rows, labelled=True, class_='stacks')


def orders_part(chosen):
    """Links to the other orders."""
    links = [element('strong', escape(words)) if file == chosen else link(words, file) for file, words, _ in ORDERS]
    return element('nav', element('p', 'Ordered by: ' + ' · '.join(links)))


def listed(entries):
    return element('ul', ''.join(element('li', plan_cell(entry)) for entry in entries))


def by_test(entries, noun='plan'):
    """For each test the plans, or revisions, that don't meet it, and those that meet all that were judged."""
    audited = [entry for entry in entries if entry.report]
    parts = [('All tests that were judged: met', [entry for entry in audited if not entry.report.broken])]
    parts += [(f'{clause.title}: not met', [entry for entry in audited if clause.name in entry.report.broken]) for clause in CLAUSES]
    said = ''.join(element('details', element('summary', f'{escape(words)} ({count(len(found), noun)})') + listed(found))
                   for words, found in parts if found)
    return f'<h2 id="by-test">By test</h2>\n{said}' if said else ''


def sentence(words):
    """The words that explain a fault, with a capital letter and a full stop."""
    return f'{words[0].upper()}{words[1:].rstrip(".")}.' if words else ''


def refused_part(entries):
    """The plans that were not audited, with their faults and what to do."""
    refused = [entry for entry in entries if entry.fault]
    if not refused:
        return ''
    rows = [(name(entry.plan), element('code', escape(entry.fault)), escape(sentence(entry.words))) for entry in refused]
    heads = ('File', False), ('Fault', False), ('What to do', False)
    return '<h2 id="refused">Not audited</h2>' + table(f'{count(len(refused), "file")} could not be audited.', heads, rows,
                                                        labelled=True, class_='stacks')


def summary_words(entries, noun='plan'):
    """How many plans, or revisions, meet all tests, how many don't, and how many were refused."""
    audited, faults = [entry for entry in entries if entry.report], sum(bool(entry.fault) for entry in entries)
    broken = sum(bool(entry.report.broken) for entry in audited)
    met = len(audited) - broken
    said = [f'{count(len(audited), noun)} audited', f'{grouped(met)} {"meets" if met == 1 else "meet"} all tests that were judged',
            f'{grouped(broken)} {"does" if broken == 1 else "do"} not']
    return ': '.join([said[0], ', '.join(said[1:])]) + (f'; {count(faults, "file")} refused' if faults else '')


def tables_links():
    """Links to the tables of all plans."""
    found = [link(f'{kind} ({form.upper()})', f'{kind}.{form}') for kind in ('plans', 'verdicts', 'districts') for form in ('csv', 'json')]
    return navigation(['Tables: ' + found[0], *found[1:]])


def all_tables(entries):
    """Each table of all plans: its file and its text."""
    audited = [entry for entry in entries if entry.report]
    rows = {
        'plans': [plans_row(entry.address(), entry.report, entry.time, entry.all_pieces()) if entry.report else
                  fault_row(entry.address(), entry.kind, entry.districts, entry.fault, entry.time)
                  for entry in entries if entry.report or entry.fault],
        'verdicts': [row for entry in audited for row in verdicts_rows(entry.address(), entry.report)],
        'districts': [row for entry in audited for row in districts_rows(entry.address(), entry.report, entry.pieces)]}
    for kind, found in rows.items():
        yield f'{kind}.csv', csv_text(kind, found)
        yield f'{kind}.json', json_text(kind, found)
