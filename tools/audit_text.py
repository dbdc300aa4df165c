"""For tools/report: a report as lines for a terminal."""
import itertools

from audit import CLAUSES, KINDS, count, decimal, exact, figures, grouped, missing_words, result, verdict_words
from audit_more import MOST, SOME, More, found_again, numbered

BAR = 20


def table(heads, rows):
    """Columns, the first to the left and the others to the right."""
    widths = [max(len(row[n]) for row in [heads, *rows]) for n in range(len(heads))]
    for row in [heads, *rows]:
        cells = [row[0].ljust(widths[0])] + [cell.rjust(width) for cell, width in zip(row[1:], widths[1:])]
        yield '  '.join(cells).rstrip()


def bar(percent, widest):
    """A distance from the ideal, to the left or to the right of a bar, by signs."""
    size = 0 if not widest else int(abs(percent) * BAR / widest + 0.5)
    below, above = ('#' * size, '') if percent < 0 else ('', '#' * size)
    return f'{below:>{BAR}}|{above:<{BAR}}'.rstrip()


def people_mark(report, district):
    if district in report.named():
        return f'  {report.named_as(district)}'
    return '  above the limit' if district in report.beyond() else ''


def people_lines(report):
    far = [report.percent(people) for people in report.populations]
    rows = [(str(d), grouped(people), exact(people - report.ideal(), sign=True), decimal(percent, sign=True))
            for d, (people, percent) in enumerate(zip(report.populations, far), 1)]
    lines = list(table(('District', 'People', 'From the ideal', 'Percent'), rows))
    widest = max((abs(percent) for percent in far if percent is not None), default=0)
    wide = max(map(len, lines))
    yield lines[0]
    for d, (text, percent) in enumerate(zip(lines[1:], far), 1):
        picture = '' if percent is None else bar(percent, widest)
        yield f'{text:<{wide}}  {picture}{people_mark(report, d)}'.rstrip()


def gap_line(gap, names):
    if 'from' not in gap:
        return f'  district {gap["district"]} has no block'
    return f'  district {gap["district"]}: no path within it from {names.of_block(gap["from"])} to {names.of_block(gap["to"])}'


def list_line(name, codes):
    return f'{name}: {", ".join(codes) or "none"}'


def piece_lines(ground, names):
    """The pieces of the districts that have several."""
    pieces = ground.pieces()
    if not pieces:
        return
    rows = [(str(piece.district), f'{place} of {of}', grouped(len(piece.blocks)), '' if piece.people is None else grouped(piece.people))
            for piece, place, of in itertools.islice(numbered(pieces), MOST)]
    yield ''
    yield 'Pieces of these districts'
    last = ['Lowest block', *(names.of_block(piece.blocks[0]) for piece in pieces)]
    heads = 'District', 'Piece', 'Blocks', '' if ground.people is None else 'People'
    yield from (f'{line}  {words}' for line, words in zip(table(heads, rows), last))
    if len(pieces) > MOST:
        yield f'and {grouped(len(pieces) - MOST)} more'


def unassigned_lines(ground, names):
    blocks = ground.unassigned()
    if blocks:
        yield ''
        yield 'Blocks without a district'
    for block in blocks[:SOME]:
        people = '' if ground.people is None else f': {grouped(ground.people[block])} people'
        yield f'  {names.of_block(block)}{people}'
    if len(blocks) > SOME:
        yield f'  and {grouped(len(blocks) - SOME)} more'


def made_lines(made, ground):
    """What was audited, as far as it is known."""
    yield ''
    yield 'What was audited'
    for file in made.files:
        yield f'  {file.digest}  {file.name}, {count(file.size, "byte")}'
    if made.source:
        yield f'  {made.source}'
    if ground:
        yield found_again(ground)
    yield f'Program: {made.version or "not known"}'
    yield f'Made: {made.date}'


def text(report, title, more=More()):
    """The lines of a report."""
    names = more.names
    yield title
    yield f'{KINDS[report.kind]} plan of {count(report.districts, "district")}: it {verdict_words(report)}.'
    yield f'People {grouped(report.population)}, ideal {exact(report.ideal())}, mean deviation {decimal(report.mean_percent())} percent'
    yield ''
    for clause in CLAUSES:
        if report.kind in clause.kinds:
            yield f'{result(report, clause):10}  {clause.name:14}  {clause.title}'
            if result(report, clause) == 'not met':
                yield f'            {figures(report, clause)}'
    if report.of_missing():
        yield missing_words(report)
    yield ''
    yield from people_lines(report)
    yield from lists(report, more)
    yield ''
    yield list_line('Divided counties', map(names.county, report.counties))
    yield list_line('Divided cities', map(names.city, report.cities))
    yield list_line('Cities divided within one county', map(names.city, report.cities_in_county))
    if more.made:
        yield from made_lines(more.made, more.ground)


def lists(report, more):
    """The districts that are not contiguous, the blocks without a district, and the districts that are not nested or are divided."""
    if report.contiguity:
        yield ''
        yield 'Districts that are not contiguous'
        yield from (gap_line(gap, more.names) for gap in report.contiguity)
    if more.ground:
        yield from piece_lines(more.ground, more.names)
        yield from unassigned_lines(more.ground, more.names)
    if report.nesting:
        yield ''
        yield list_line('Districts that are not nested', map(str, report.nesting))
    if report.divided_by_congress is not None:
        yield ''
        yield list_line('Districts that congressional districts divide', map(str, report.divided_by_congress))
