"""For tools/desk: two revisions compared, by their tests, blocks, districts and counties, as pages and as tables. What differs is
shown, and nothing else."""
from dataclasses import dataclass
from fractions import Fraction
from html import escape

from audit import CLAUSES, count, decimal, exact, grouped, result
from audit_page import result_cell, test_cell
from page_parts import element, table
from served import overlaps

# so many blocks are listed one by one
FEW = 30


@dataclass(frozen=True)
class Side:
    """One of two revisions."""
    plan: str
    number: int
    report: object

    def title(self):
        return f'{self.plan}, revision {self.number}'

    def words_with(self, other):
        """How the columns of both are called: of one plan before and after."""
        return ('before', 'after') if self.plan == other.plan else ('in the first', 'in the second')


def code(district):
    return 'none' if district in ('', 'ZZ', 'ZZZ') else str(int(district))


def parts(before, after, people):
    """Each county's parts, rising: county, code in one plan and in the other, blocks, people."""
    return [(county, code(old), code(new), blocks, sum(people.get(block, 0) for block in blocks))
            for county, found in sorted(overlaps(before, after).items()) for (old, new), blocks in sorted(found.items())]


def moved(found):
    return [part for part in found if part[1] != part[2]]


def total(found):
    """The number of blocks, with the number of people."""
    return f'{count(sum(len(part[3]) for part in found), "block")} with {count(sum(part[4] for part in found), "person", "people")}'


def counties(found):
    return len({part[0] for part in found})


def moved_words(found):
    """What has another district, in a few words."""
    return f'{total(found)}, in {count(counties(found), "county", "counties")}' if found else 'no block'


def table_rows(first, second, found, names):
    """The parts that differ as rows of a table: a block without a district has none there."""
    for county, *districts, blocks, people in moved(found):
        codes = [None if district == 'none' else int(district) for district in districts]
        yield (second.plan, second.number, first.plan, first.number, county, names.counties.get(county[2:]), *codes, len(blocks), people)


def county_cell(county, names):
    return escape(f'{county[:2]} {names.county(county[2:])}')


def signed(number):
    return ('+' if number > 0 else '\u2212' if number < 0 else '') + grouped(abs(number))


def tests_table(first, second):
    """Both verdicts, test by test; the rows of tests whose results differ stand out."""
    rows, marked = [], []
    for clause in CLAUSES:
        ends = [result(side.report, clause) for side in (first, second) if side.report.kind in clause.kinds]
        if len(set(ends)) > 1:
            marked.append(len(rows))
        if ends:
            shown = [result(side.report, clause) if side.report.kind in clause.kinds else 'does not apply' for side in (first, second)]
            rows.append((test_cell(clause), *map(result_cell, shown), 'differs' if len(set(ends)) > 1 else ''))
    heads = [(text, False) for text in ('Test', first.title(), second.title(), 'Difference')]
    return table('The results of both audits.', heads, rows, labelled=True, marked=marked, class_='stacks')


def figures(report):
    """The figures of an audit, by their names."""
    spread = report.spread()
    return {'Largest deviation': f'{decimal(report.farthest(), sign=True)} %', 'Mean deviation': f'{decimal(report.mean_percent())} %',
            'Overall range': 'none' if spread is None else f'{decimal(spread)} %', 'Most people': grouped(max(report.populations)),
            'Fewest people': grouped(min(report.populations)), 'Districts beyond the limit': grouped(len(report.beyond())),
            'Districts in several pieces or none': grouped(len(report.contiguity)), 'Divided counties': grouped(len(report.counties)),
            'Divided cities': grouped(len(report.cities)), 'Blocks without a district': grouped(report.unassigned),
            'Ideal for a district': exact(report.ideal())}


def figures_table(first, second):
    """The figures that differ."""
    one, other = figures(first.report), figures(second.report)
    rows = [(name, one[name], other[name]) for name in one if one[name] != other[name]]
    heads = ('Figure', False), (first.title(), True), (second.title(), True)
    return table('The figures that differ.', heads, rows, labelled=True, class_='stacks') if rows else \
        '<p>Both audits have the same figures.</p>'


def blocks_part(found, people, names, words):
    """The blocks that have another district, if they are few."""
    blocks = sorted((block, old, new) for _, old, new, some, _ in found for block in some)
    if not blocks or len(blocks) > FEW:
        return ''
    rows = [(escape(names.of_block(block)), old, new, grouped(people.get(block, 0))) for block, old, new in blocks]
    heads = ('Block', False), *((f'District {word}', True) for word in words), ('People', True)
    return '<h2>Blocks</h2>' + table('Each block that has another district.', heads, rows, labelled=True, class_='stacks')


def sums(found, place):
    """The people by the code at this place of a part."""
    said = {}
    for part in found:
        said[part[place]] = said.get(part[place], 0) + part[4]
    return said


def by_number(district):
    return district == 'none', district != 'none' and int(district)


def mostly(found):
    """For each district of the first plan, the one of the second that has most of its people, and how many."""
    shared = {}
    for _, old, new, _, people in found:
        shared.setdefault(old, {}).setdefault(new, 0)
        shared[old][new] += people
    return {old: max(of.items(), key=lambda pair: (pair[1], pair[0] == old)) for old, of in shared.items()}


def by_district(found, words):
    """The districts that have other blocks."""
    ones, others, most = sums(found, 1), sums(found, 2), mostly(found)
    touched = {part[place] for part in moved(found) for place in (1, 2)}
    rows = []
    for district in sorted(touched, key=by_number):
        one, other = ones.get(district, 0), others.get(district, 0)
        where, people = most.get(district, ('', 0))
        share = f'{where} ({decimal(Fraction(100 * people, one), 1)} %)' if where and one else where
        rows.append((district, grouped(one), grouped(other), signed(other - one), share))
    heads = ('District', False), *((f'People {word}', True) for word in words), ('Difference', True), ('Most of its people are then in', True)
    unchanged = len((ones.keys() | others.keys()) - touched)
    return table(f'The districts that have other blocks; {count(unchanged, "district has", "districts have")} the same.', heads, rows,
                 labelled=True, class_='stacks')


def by_county(found, names, words):
    """The counties of which a part has another district."""
    rows = []
    for county in sorted({part[0] for part in moved(found)}):
        mine = [part for part in found if part[0] == county]
        firsts, seconds = ({part[place] for part in mine} - {'none'} for place in (1, 2))
        people, others = (sum(part[4] for part in some) for some in (mine, moved(mine)))
        rows.append((county_cell(county, names), grouped(people), grouped(len(firsts)), grouped(len(seconds)), grouped(others)))
    heads = ('County', False), ('People', True), *((f'Districts {word}', True) for word in words), ('People in another district', True)
    return table('The counties of which a part has another district.', heads, rows, labelled=True, class_='stacks')


def parts_table(found, names, words):
    heads = ('County', False), *((f'District {word}', True) for word in words), ('Blocks', True), ('People', True)
    return table('The blocks that have another district, by county.', heads,
                 [(county_cell(county, names), old, new, grouped(len(blocks)), grouped(people)) for county, old, new, blocks, people in found],
                 labelled=True, class_='stacks')


def compared_part(first, second, found, people, names):
    """The second revision compared with the first."""
    others = moved(found)
    said = f'{moved_words(others)}, of {total(found)}, {"has" if sum(len(part[3]) for part in others) == 1 else "have"} another district.' \
        if others else 'Every block has the same district.'
    shown = [element('p', escape(said[0].upper() + said[1:])), '<h2>The tests</h2>', tests_table(first, second),
             figures_table(first, second)]
    if others:
        words = first.words_with(second)
        shown += [blocks_part(others, people, names, words), '<h2>By district</h2>', by_district(found, words), '<h2>By county</h2>',
                  by_county(found, names, words), '<h2>Part by part</h2>', parts_table(others, names, words)]
    return ''.join(shown)
