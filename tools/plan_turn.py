"""For tools/plan and tools/audit: a plan's file, as somebody sent it, turned into a block assignment file."""
import io, itertools, re
from collections import Counter
from dataclasses import dataclass, field

from audit import Refused
from plan_file import quoted, text_of
from plan_letters import is_unassigned
from plan_table import DELIMITERS, EXPONENT, columns_of, delimiter_of, rows_of, short

HEAD = 'BLOCKID|DISTRICT'
# how spreadsheets keep the digits of a field
KEPT = re.compile(r'''="(.*)"|"(.*)"|'(.*)''', re.S)
BLOCK = re.compile(r'([0-9]{7}US)?([0-9]{14,15})(\.0+)?\Z')
DISTRICT = re.compile(r'(0*)([0-9]{1,3})(\.0+)?\Z')
SPACES, MARKS = 'fields freed of spaces', "fields freed of a spreadsheet's marks"
FIRST_DIGIT = 'blocks given back their first digit'


@dataclass(frozen=True)
class Reading:
    """How a file is read: its columns, its delimiter, the numbers of named districts, the part of a zip or spreadsheet, and, if they
    are known, the state's blocks and the plan's number of districts."""
    block: str = None
    district: str = None
    delimiter: str = None
    letters: dict = field(default_factory=dict)
    part: str = None
    blocks: frozenset = None
    districts: int = None


def freed(cell):
    """A field without spaces around it and without the marks by which spreadsheets keep digits (="1900.." and '1900..), and which of
    both it had."""
    found = cell.strip()
    match = KEPT.fullmatch(found)
    bare = match[match.lastindex] if match else found
    return bare.strip(), [mark for mark, had in ((SPACES, found != cell), (MARKS, bare != found)) if had]


class Plan:
    """The lines of a block assignment file, and what was changed in them."""

    def __init__(self, reading, changes):
        self.reading, self.changes = reading, changes
        self.lines, self.seen, self.districts, self.unassigned = [HEAD], {}, set(), 0
        # what each field of a district becomes, with its changes: a file has few of them
        self.known = {}

    def mark(self, what, happened=True):
        """Counts a change, if there was one."""
        if happened:
            self.changes[what] += 1

    def block(self, cell, line):
        """The 15 digits of a block."""
        if not (len(cell) == 15 and cell.isascii() and cell.isdigit()):
            cell = self.odd_block(cell, line)
        if self.reading.blocks is not None and cell not in self.reading.blocks:
            raise Refused(f'UnknownBlock line {line} {quoted([cell])}')
        return cell

    def odd_block(self, cell, line):
        """The same of a field that has more or less than 15 digits."""
        found, marks = freed(cell)
        match = BLOCK.match(found)
        if match is None:
            raise Refused(f'{"LostDigits" if EXPONENT.match(found) else "BadBlock"} line {line} {quoted([found])}')
        self.changes.update(marks)
        self.mark("blocks freed of the census's prefix", match[1])
        self.mark('blocks freed of .0', match[3])
        return match[2] if len(match[2]) == 15 else self.whole(match[2], line)

    def whole(self, digits, line):
        """The one block of the state that has 14 digits behind its first one."""
        found = next((block for block in (first + digits for first in '0123456789') if block in (self.reading.blocks or ())), None)
        if found is None:
            raise Refused(f'LostZero line {line} {quoted([digits])}')
        self.mark(FIRST_DIGIT)
        return found

    def code(self, cell):
        """What a field of a district becomes, and its changes; the fault's code where it is none."""
        found, marks = freed(cell)
        letters = self.reading.letters
        if found in letters:
            return letters[found], [*marks, f'districts {short(found)} turned to {letters[found] or "none"}']
        if is_unassigned(found):
            return found.upper(), [*marks, *(['districts written in capitals'] if found != found.upper() else [])]
        match = DISTRICT.match(found)
        if match is None:
            raise Refused('BadDistrict')
        if int(match[2]) == 0:
            raise Refused('ZeroDistrict')
        if self.reading.districts is not None and int(match[2]) > self.reading.districts:
            raise Refused('HighDistrict')
        digits = match[1] + match[2]
        changes = ('districts freed of .0', match[3]), ('districts freed of leading zeros', len(digits) > 3)
        return digits if len(digits) <= 3 else str(int(match[2])), [*marks, *(change for change, had in changes if had)]

    def district(self, cell, line):
        if cell not in self.known:
            try:
                self.known[cell] = self.code(cell)
            except Refused as fault:
                raise Refused(f'{fault.code} line {line} {quoted([cell])}') from None
        code, changes = self.known[cell]
        if changes:
            self.changes.update(changes)
        return code

    def add(self, block, district, line):
        block, district = self.block(block, line), self.district(district, line)
        first = self.seen.setdefault(block, line)
        if first != line:
            raise Refused(f'Repeated line {line}, first line {first} {quoted([block])}')
        if is_unassigned(district):
            self.unassigned += 1
        else:
            self.districts.add(int(district))
        self.lines.append(f'{block}|{district}')

    def text(self):
        return '\n'.join(self.lines) + '\n'

    def told(self):
        """The counts, and each kind of change with its count, as lines."""
        found = {'blocks': len(self.seen), 'blocks without a district': self.unassigned, 'districts': len(self.districts)}
        if self.reading.blocks is not None:
            found['blocks of the state that the file lacks'] = len(self.reading.blocks) - len(self.seen)
        changes = sorted((what, number) for what, number in self.changes.items() if number)
        return [f'{what}: {number}' for what, number in [*found.items(), *changes]]


def some_rows(text, sign, plan):
    """The rows that aren't empty, with what is changed in all of them."""
    for line, raw, cells in rows_of(text, sign):
        plan.mark('empty lines left out', not cells)
        if cells:
            plan.mark('lines freed of quotes', '"' in raw)
            plan.mark('lines turned to bars', sign != '|')
            yield line, raw, cells


def begun(row, plan):
    """Whether the first row has heads, and the places of both columns."""
    line, raw, cells = row
    heads, block, district = columns_of(cells, plan.reading.block, plan.reading.district)
    if heads and (re.search('[0-9]{9}', cells[block]) or not re.search('[A-Za-z]', cells[block])):
        # no head, but a number that no block has
        raise Refused(f'BadBlock line {line} {quoted([cells[block]])}')
    plan.mark('first line put', not heads)
    plan.mark('first line replaced', heads and raw.rstrip('\r\n') != HEAD)
    plan.mark('columns put in order', block > district)
    plan.changes['columns left out'] += len(cells) - 2
    return heads, block, district


def placed_rows(text, plan):
    """The line, the block's field and the district's field of each row."""
    sign = plan.reading.delimiter or (DELIMITERS[delimiter_of(text)] if text.strip() else ',')
    rows = some_rows(text, sign, plan)
    first = next(rows, None)
    if first is None:
        return
    heads, block, district = begun(first, plan)
    for line, _, cells in rows if heads else itertools.chain([first], rows):
        if len(cells) != len(first[2]):
            raise Refused(f'BadFields line {line}, fields {len(cells)}, first row {len(first[2])}')
        yield line, cells[block], cells[district]


def turned(data, reading):
    """The plan that a file's bytes are."""
    changes = Counter()
    plan, text = Plan(reading, changes), text_of(data, changes, reading.part)
    for line, block, district in placed_rows(text, plan):
        plan.add(block, district, line)
    if not plan.seen:
        raise Refused(f'NoBlocks line {sum(1 for _ in io.StringIO(text, newline=""))}')
    return plan


def named_districts(data, reading):
    """The names that a file has in the place of districts' numbers."""
    changes = Counter()
    plan, found = Plan(reading, changes), set()
    for cell in {cell for _, _, cell in placed_rows(text_of(data, changes, reading.part), plan)}:
        try:
            plan.code(cell)
        except Refused:
            found.add(freed(cell)[0])
    return found
