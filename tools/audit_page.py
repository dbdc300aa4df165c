"""For tools/report, tools/desk and tools/audit: a report as one page of HTML with its pictures in it. There is no script in a page,
and it loads nothing."""
from html import escape

from audit import CLAUSES, KINDS, count, decimal, exact, figures, grouped, missing_words, result, verdict_words
from audit_chart import gap_picture, mean_picture, people_pictures
from audit_more import More, links_part, made_part, pieces_part, unassigned_part
from page_parts import breakable, codes, document, element, table


def result_cell(ends):
    return element('span', ends, class_='is-' + ends.replace(' ', '-'))


def test_cell(clause):
    section = 'no section: a plan covers the state' if clause.section == 'none' else f'Iowa Code {clause.section}'
    return f'{escape(clause.title)}<small>{escape(section)}</small>'


def tests_part(report):
    rows = []
    for clause in (clause for clause in CLAUSES if report.kind in clause.kinds):
        ends = result(report, clause)
        numbers = '' if ends == 'not judged' else escape(figures(report, clause))
        rows.append((test_cell(clause), f'{escape(clause.law[0].upper() + clause.law[1:])}.', result_cell(ends), numbers))
    heads = [(text, False) for text in ('Test', 'What it asks', 'Result', 'By these numbers')]
    missing = element('p', escape(missing_words(report))) if report.of_missing() else ''
    return missing + table('Whole numbers decide each test; nothing is rounded in it.', heads, rows, class_='stacks')


def people_mark(report, district):
    """What is said of a district beside its number."""
    if district in report.named():
        return f' <span class="not-met">{report.named_as(district)}</span>'
    return ' <span class="not-met">above the limit</span>' if district in report.beyond() else ''


def people_part(report):
    rows = [(f'{district}{people_mark(report, district)}', grouped(people), exact(people - report.ideal(), sign=True),
             decimal(report.percent(people), sign=True)) for district, people in enumerate(report.populations, 1)]
    pictures = '' if not report.population else \
        people_pictures(report) + ('' if report.kind == 'congress' else mean_picture(report))
    heads = ('District', False), ('People', True), ('From the ideal', True), ('Percent', True)
    return pictures + table('Distances are rounded to two places here.', heads, rows)


def gaps_part(report, more):
    if not report.contiguity:
        return '<p>Every district is contiguous: a path of neighbours within it joins any two of its blocks.</p>'
    rows = [(str(gap['district']), escape(more.names.of_block(gap['from'])) if 'from' in gap else 'no block',
             escape(more.names.of_block(gap['to'])) if 'to' in gap else '', gap_picture(gap) if 'from' in gap else '')
            for gap in report.contiguity]
    heads = [(text, False) for text in ('District', 'First block', 'Not reached from it', 'Picture')]
    said = table('For each district its first block, and the first one to which no path of neighbours within the district leads from '
                 'it. The parts of a number are state, county, tract and block.', heads, rows)
    return said + (pieces_part(more.ground, more.names) if more.ground and more.ground.pieces() else '')


def divided_part(report, names):
    return ('<p>No number of divided counties or cities decides a test: the law asks for as few as possible, and whoever compares plans '
            'judges that. Counties have the census’s three digits, cities its five.</p>' +
            codes('Divided counties', list(map(names.county, report.counties)), 'none') +
            codes('Divided cities', list(map(names.city, report.cities)), 'none') +
            codes('Cities that are divided within one county', list(map(names.city, report.cities_in_county)), 'none'))


def nesting_part(report):
    if report.not_asked:
        return '<p>It was not judged: no senate plan was given with this house plan.</p>'
    return codes('House districts that lie in more than one senate district, or in part in none', list(map(str, report.nesting)),
                 'none')


def congress_part(report):
    return codes('Districts that lie in more than one congressional district, or in part in none',
                 list(map(str, report.divided_by_congress)), 'none')


def facts(report, more):
    spread = report.spread()
    pairs = (('Kind', KINDS[report.kind]), ('Districts', report.districts), ('People', grouped(report.population)),
             ('Ideal for a district', exact(report.ideal())), ('Most people', grouped(max(report.populations))),
             ('Fewest people', grouped(min(report.populations))),
             ('Overall range', 'none' if spread is None else f'{decimal(spread)} %'),
             ('Mean deviation', f'{decimal(report.mean_percent())} %' if report.population else 'none'),
             ('Blocks without a district', grouped(report.unassigned)))
    return element('dl', ''.join(f'<div><dt>{term}</dt><dd>{value}</dd></div>' for term, value in [*pairs, *more.facts]))


def verdict_part(report):
    """The verdict, with the tests that are not met."""
    return (f'<p class="verdict{" broken" if report.broken else ""}">{KINDS[report.kind]} plan of '
            f'{count(report.districts, "district")}: it {escape(verdict_words(report))}.</p>')


def page(report, title, source, more=More()):
    """The page of a report; the source is its line of JSON."""
    parts = [('The tests', tests_part(report)), ('People by district', people_part(report)),
             ('Districts that are not contiguous', gaps_part(report, more))]
    if more.ground and more.ground.unassigned():
        parts.append(('Blocks without a district', unassigned_part(more.ground, more.names)))
    if report.kind == 'house':
        parts.append(('Nesting in senate districts', nesting_part(report)))
    if report.divided_by_congress is not None:
        parts.append(('Division by congressional districts', congress_part(report)))
    parts.append(('Divided counties and cities', divided_part(report, more.names)))
    if more.notes:
        parts.append(('What was changed in the file', codes('The file was turned into a block assignment file', more.notes, 'none')))
    if more.made:
        parts.append(('What was audited', made_part(more.made, more.ground)))
    parts.append(('The report itself', element('pre', escape(source))))
    body = f'<h1>{breakable(title)}</h1>\n{links_part(more.links)}{verdict_part(report)}\n{facts(report, more)}\n'
    return document(title, body + '\n'.join(f'<section>\n<h2>{head}</h2>\n{part}\n</section>' for head, part in parts))
