"""For tools/report, tools/desk and tools/audit: the tests that an audit judges, and a report, which is read from its JSON.

docs/REPORT.md has each key, and docs/LAW.md each test: what is said of the law here stands there too.
"""
import contextlib, json, os, sys
from collections import Counter
from dataclasses import dataclass
from fractions import Fraction

LARGEST = 16 << 20
KINDS = {'congress': 'Congressional', 'senate': 'Senate', 'house': 'House'}
# a plan's districts, and a state's people and blocks, are no more than these
SIZES, PEOPLE, BLOCKS = {'congress': 99, 'senate': 999, 'house': 999}, (1 << 32) - 1, 1 << 20
KEYS = ('broken', 'cities', 'cities_in_county', 'congress', 'contiguity', 'counties', 'districts', 'divided_by_congress', 'kind',
        'nesting', 'not_asked', 'population', 'populations', 'range', 'unassigned')
GAP = 'district', 'from', 'to'


class Refused(Exception):
    """Why there is no result: what is printed, the status, the file in which the fault is, and what to do, if the tool's own table of
    codes doesn't have it."""

    def __init__(self, code, status=3, place=None, words=None):
        super().__init__(code)
        self.code, self.status, self.place, self.words = code, status, place, words


@contextlib.contextmanager
def within(place):
    """Names this file in each fault that comes from within and names none."""
    try:
        yield
    except Refused as fault:
        fault.place = fault.place or place
        raise


@dataclass(frozen=True)
class Clause:
    name: str
    section: str
    kinds: tuple
    title: str
    law: str


CLAUSES = (
    Clause('desk.complete', 'none', ('congress', 'senate', 'house'), 'Every block has a district', 'a plan covers the state'),
    Clause('42.4.1.a.mean', '42.4(1)a', ('senate', 'house'), 'Mean deviation',
           'the total of the absolute deviations of all districts from the ideal, divided by the number of districts, may not exceed '
           'one percent of the ideal'),
    Clause('42.4.1.a.range', '42.4(1)a', ('senate', 'house'), 'Overall range',
           'no senatorial district may have a population that exceeds that of another by more than five percent, and the same of '
           'representative districts'),
    Clause('42.4.1.b', '42.4(1)b', ('congress',), 'Each congressional district',
           'no congressional district may vary by more than one percent from the ideal'),
    Clause('42.4.3', '42.4(3)', ('congress', 'senate', 'house'), 'Contiguity',
           "districts are of contiguous territory, and areas that meet only at the points of adjoining corners aren't contiguous"),
    Clause('42.4.6', '42.4(6)', ('house',), 'Nesting',
           'each representative district is wholly included within a single senatorial district'))
NAMES = [clause.name for clause in CLAUSES]


@dataclass(frozen=True)
class Report:
    broken: list
    cities: list
    cities_in_county: list
    congress: list
    contiguity: list
    counties: list
    districts: int
    divided_by_congress: list
    kind: str
    nesting: list
    not_asked: list
    population: int
    populations: list
    range: list
    unassigned: int

    def ideal(self):
        return Fraction(self.population, self.districts)

    def distances(self):
        """n times each district's distance from the ideal, as a whole number with its sign."""
        return [self.districts * people - self.population for people in self.populations]

    def percent(self, people):
        """By how much so many people pass the ideal; none where nobody lives in the state."""
        return 100 * (people - self.ideal()) / self.ideal() if self.population else None

    def mean_percent(self):
        total = sum(map(abs, self.distances()))
        return Fraction(100 * total, self.districts * self.population) if self.population else None

    def asked(self):
        """The tests that are judged of such a plan."""
        return [clause for clause in CLAUSES if self.kind in clause.kinds and clause.name not in self.not_asked]

    def named(self):
        """The districts that the report names for their people: each one of a congressional plan that is beyond its limit, else the
        most and the least populous one if they are too far apart."""
        return set(self.congress) if self.kind == 'congress' else set(self.range or ())

    def named_as(self, district):
        """Why the report names a district for its people."""
        if self.kind == 'congress':
            return 'beyond the limit'
        return 'most populous' if district == self.range[0] else 'least populous'

    def beyond(self):
        """The districts that are beyond the limit on people. Of a legislative plan they have over five percent more than the least."""
        if self.kind == 'congress':
            return set(self.congress)
        least = min(self.populations)
        return {district for district, people in enumerate(self.populations, 1) if 20 * people > 21 * least}

    def spread(self):
        """By how many percent of the least populous district the most populous one has more; none if nobody lives there."""
        least = min(self.populations)
        return Fraction(100 * (max(self.populations) - least), least) if least else None

    def farthest(self):
        """The deviation in percent of the district that is farthest from the ideal."""
        return max(map(self.percent, self.populations), key=abs) if self.population else None

    def of_missing(self):
        """The tests that are not met, besides the one of blocks without a district, if there are such blocks."""
        return [clause for clause in CLAUSES[1:] if self.unassigned and clause.name in self.broken]


def is_number(value, low=0, high=PEOPLE):
    return type(value) is int and low <= value <= high


def is_code(value, length):
    return isinstance(value, str) and len(value) == length and value.isascii() and value.isdigit()


def is_rising(values, test):
    return isinstance(values, list) and all(map(test, values)) and all(a < b for a, b in zip(values, values[1:]))


def is_gap(value, districts):
    """A district without blocks, or one with two blocks between which no path leads."""
    if not isinstance(value, dict) or not is_number(value.get('district'), 1, districts):
        return False
    if set(value) == {'district'}:
        return True
    return set(value) == {'district', 'from', 'to'} and is_code(value['from'], 15) and is_code(value['to'], 15)


def bad_key(value):
    """The first key that says nothing that a report says, if there is one."""
    named = isinstance(value['kind'], str) and value['kind'] in KINDS
    n = value['districts'] if is_number(value['districts'], 1, SIZES[value['kind']] if named else 999) else 0

    def is_district(number):
        return is_number(number, 1, n)

    def is_clause(name):
        return name in NAMES

    tests = {'districts': n > 0, 'kind': named, 'population': is_number(value['population']),
             'unassigned': is_number(value['unassigned'], 0, BLOCKS)}
    for key, length in (('cities', 5), ('cities_in_county', 5), ('counties', 3)):
        tests[key] = is_rising(value[key], lambda code, length=length: is_code(code, length))
    for key in 'congress', 'nesting':
        tests[key] = is_rising(value[key], is_district)
    broken, divided, gaps, people, pair = (value[key] for key in ('broken', 'divided_by_congress', 'contiguity', 'populations', 'range'))
    tests['divided_by_congress'] = divided is None or value['kind'] != 'congress' and is_rising(divided, is_district)
    tests['broken'] = isinstance(broken, list) and all(isinstance(name, str) and is_clause(name) for name in broken)
    tests['not_asked'] = value['not_asked'] in ([], ['42.4.6'])
    tests['contiguity'] = isinstance(gaps, list) and all(is_gap(gap, n) for gap in gaps) and \
        is_rising([gap['district'] for gap in gaps], is_district)
    tests['populations'] = isinstance(people, list) and len(people) == n and all(map(is_number, people))
    tests['range'] = pair is None or isinstance(pair, list) and len(pair) == 2 and all(map(is_district, pair))
    return next((key for key in KEYS if not tests[key]), None)


def limits_broken(report):
    """The clauses, the districts of 42.4(1)b and the pair of the range, by the inequalities of docs/LAW.md."""
    n, total, people, far = report.districts, report.population, report.populations, report.distances()
    legislature = report.kind != 'congress'
    congress = [] if legislature else [d for d, distance in enumerate(far, 1) if 100 * abs(distance) > total]
    most, least = max(people), min(people)
    wide = legislature and 20 * most > 21 * least
    found = {'desk.complete': report.unassigned > 0, '42.4.1.a.mean': legislature and 100 * sum(map(abs, far)) > n * total,
             '42.4.1.a.range': wide, '42.4.1.b': congress != [], '42.4.3': report.contiguity != [], '42.4.6': report.nesting != []}
    pair = [people.index(most) + 1, people.index(least) + 1] if wide else None
    return [name for name in NAMES if found[name]], congress, pair


def contradiction(report):
    """The first key that isn't what the report's own figures say, if there is one; what others are judged by comes before them."""
    broken, congress, pair = limits_broken(report)
    people, lacks = sum(report.populations), report.unassigned > 0
    empty = {gap['district'] for gap in report.contiguity if 'from' not in gap}
    pieces = [gap for gap in report.contiguity if 'from' in gap]
    of = {gap[end]: gap['district'] for gap in pieces for end in ('from', 'to')}
    # the counties that these blocks divide, and whether any can be divided: to have no district is one here
    met = Counter(county for county, _ in {(block[2:5], district) for block, district in of.items()})
    differ = report.districts - len(empty) + lacks > 1
    holds = {
        'populations': people == report.population or lacks and people < report.population,
        'broken': report.broken == broken,
        'contiguity': len(of) == 2 * len(pieces) and len({block[:2] for block in of}) < 2 and
                      all(gap['from'] < gap['to'] for gap in pieces) and not any(report.populations[d - 1] for d in empty),
        'cities': differ or not report.cities,
        'cities_in_county': set(report.cities_in_county) <= set(report.cities if report.counties else ()),
        'congress': report.congress == congress,
        'counties': (differ or not report.counties) and {county for county in met if met[county] > 1} <= set(report.counties),
        'divided_by_congress': empty.isdisjoint(report.divided_by_congress or ()),
        'nesting': not report.nesting or report.kind == 'house' and not report.not_asked and empty.isdisjoint(report.nesting),
        'not_asked': report.kind == 'house' or not report.not_asked,
        'range': report.range == pair}
    return next((key for key, right in holds.items() if not right), None)


def once(pairs):
    """An object none of whose keys is given twice; those of a report's objects within it are of `contiguity`."""
    found = dict(pairs)
    if len(found) < len(pairs):
        key = next(key for place, (key, _) in enumerate(pairs) if key in dict(pairs[:place]))
        raise Refused(f'BadReport {key if key in KEYS else "contiguity" if key in GAP else "another key"}')
    return found


def no_constant(name):
    raise ValueError(name)


def read(text):
    """The report that these bytes are, which have one line of JSON."""
    if len(text) > LARGEST:
        raise Refused('TooLarge')
    try:
        value = json.loads(text.decode(), parse_constant=no_constant, object_pairs_hook=once)
    except (ValueError, RecursionError):
        raise Refused('NotJson') from None
    if not isinstance(value, dict):
        raise Refused('BadReport')
    key = next((key for key in KEYS if key not in value), None) or next((key for key in value if key not in KEYS), None)
    key = key if key in KEYS else 'another key' if key is not None else bad_key(value)
    report = Report(**value) if key is None else None
    key = key or contradiction(report)
    if key is not None:
        raise Refused(f'BadReport {key}')
    return report


def grouped(number):
    return f'{number:,}'


def count(number, thing, things=None):
    return f'{grouped(number)} {thing if number == 1 else things or thing + "s"}'


def decimal(value, places=2, sign=False):
    """A fraction, rounded to so many places, half away from zero; a whole number as it is."""
    if value is None:
        return 'none'
    scaled = abs(value) * 10 ** places
    whole = int(scaled + Fraction(1, 2))
    head, tail = divmod(whole, 10 ** places)
    text = grouped(head) + (f'.{tail:0{places}}' if places else '')
    # what is rounded to nothing has no sign
    return ('' if not whole else '\u2212' if value < 0 else '+' if sign else '') + text


def exact(value, sign=False):
    """Whole numbers without places, others with two."""
    return decimal(value, 0 if value is not None and Fraction(value).denominator == 1 else 2, sign)


def block_words(block):
    """A block's number in its parts: state and county, tract, block."""
    return f'{block[:2]} {block[2:5]} {block[5:11]} {block[11:]}'


def figures(report, clause):
    """The numbers by which a clause is decided, in one line."""
    n, total, people = report.districts, report.population, report.populations
    most, least = max(people), min(people)
    far = sum(map(abs, report.distances()))
    widest = max(map(abs, report.distances()))
    return {
        'desk.complete': f'{count(report.unassigned, "block")} without a district',
        '42.4.1.a.mean': f'100 × {grouped(far)} = {grouped(100 * far)}, and the limit is {n} × {grouped(total)} = {grouped(n * total)}',
        '42.4.1.a.range': f'20 × {grouped(most)} = {grouped(20 * most)}, and the limit is 21 × {grouped(least)} = {grouped(21 * least)}',
        '42.4.1.b': f'100 × {grouped(widest)} = {grouped(100 * widest)} at most, and the limit is {grouped(total)}',
        '42.4.3': f'not in one piece: {count(len(report.contiguity), "district")}',
        '42.4.6': f'not within one senate district: {count(len(report.nesting), "district")}'}[clause.name]


def result(report, clause):
    if clause.name in report.not_asked:
        return 'not judged'
    return 'not met' if clause.name in report.broken else 'met'


def verdict(report):
    asked, broken = len(report.asked()), len(report.broken)
    if broken in (0, asked):
        return f'meets {"none of the" if broken else "all"} {asked} tests that were judged'
    return f'does not meet {broken} of the {asked} tests that were judged'


def not_met(report):
    """The titles of the tests that a plan doesn't meet."""
    return [clause.title for clause in CLAUSES if clause.name in report.broken]


def verdict_words(report):
    """The verdict, with the tests that a plan doesn't meet."""
    return verdict(report) + (f': {", ".join(not_met(report))}' if report.broken else '')


def and_words(words):
    """Words with commas between them, and an 'and' before the last."""
    return ' and '.join([', '.join(words[:-1]), words[-1]] if len(words) > 1 else words)


def missing_words(report):
    """That what is not met may come of the blocks without a district."""
    titles = [f'‘{clause.title}’' for clause in report.of_missing()]
    if not titles:
        return ''
    have = ('has', 'counts') if report.unassigned == 1 else ('have', 'count')
    return (f'{count(report.unassigned, "block")} of the state {have[0]} no district and {have[1]} in none. That {and_words(titles)} '
            f'{"is" if len(titles) == 1 else "are"} not met may come of that: give every block a district, and audit again.')


def put(said, tool):
    """Prints a text as UTF-8; the status is 6 where that fails."""
    try:
        sys.stdout.buffer.write(said.encode('utf-8', 'replace'))
        sys.stdout.buffer.flush()
    except OSError:
        print(f'{tool}: WriteFault', file=sys.stderr)
        # nothing is left to be written when the interpreter ends
        os.dup2(os.open(os.devnull, os.O_WRONLY), sys.stdout.fileno())
        return 6
    return 0
