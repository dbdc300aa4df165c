"""For tools/plan and tools/audit: a delimited text as rows, and which of its columns have the blocks and the districts."""
import csv, io, itertools, re

from audit import Refused
from plan_file import LARGEST, quoted, short

# a field is as long as the file lets it be
csv.field_size_limit(LARGEST)
DELIMITERS = {'comma': ',', 'tab': '\t', 'bar': '|', 'semicolon': ';'}
# so many rows decide which delimiter a file has
SAMPLE = 50
# heads of columns, without the signs between their letters and digits
BLOCKS = ('GEOID20', 'GEOID', 'BLOCKID', 'BLOCKID20', 'BLOCK', 'BLOCK20', 'BLOCKGEOID', 'GEOCODE')
DISTRICTS = ('DISTRICT', 'DIST', 'DISTRICTID', 'DISTRICTNO', 'DISTRICTNUMBER', 'CD', 'CDFP', 'SLDU', 'SLDUST', 'SLDL', 'SLDLST')
# a block's number, whole or as spreadsheets leave it
BLOCK_LIKE = re.compile(r'''(?:="|"|')?(?:[0-9]{7}US)?[0-9]{14,15}(?:\.0+)?"?\Z''')
EXPONENT = re.compile(r'[0-9](?:[.,][0-9]+)?[Ee]\+?[0-9]{1,2}\Z')


class Lines:
    """The lines of a text, of which those are kept that a row has."""

    def __init__(self, text):
        self.lines, self.row = io.StringIO(text, newline=''), []

    def __iter__(self):
        return self

    def __next__(self):
        line = next(self.lines)
        self.row.append(line)
        return line


def rows_of(text, delimiter):
    """Each row that isn't empty: the line at which it begins, its bytes and its fields. An empty row has no fields."""
    lines = Lines(text)
    reader = csv.reader(lines, delimiter=delimiter, strict=True)
    while True:
        begins, lines.row = reader.line_num + 1, []
        try:
            cells = next(reader)
        except StopIteration:
            return
        except csv.Error:
            raise Refused(f'BadQuotes line {begins}') from None
        yield begins, ''.join(lines.row), cells if any(cell.strip() for cell in cells) else []


def widths(text, delimiter):
    """How many fields the first rows have, and the fault at which they end, if they end so."""
    found = []
    try:
        for _, _, cells in itertools.islice(rows_of(text, delimiter), SAMPLE):
            if cells:
                found.append(len(cells))
    except Refused as fault:
        return found, fault
    return found, None


def first_line(text):
    return next((line for line in io.StringIO(text) if line.strip()), '')


def delimiter_of(text):
    """The one delimiter by which the first row has several fields, and all of the first rows as many of them."""
    even, some, faults = [], [], []
    for name, delimiter in DELIMITERS.items():
        counts, fault = widths(text, delimiter)
        faults += [fault] if fault else []
        if counts and counts[0] > 1:
            some.append(name)
            if len(set(counts)) == 1:
                even.append(name)
    found = even or some
    if len(found) > 1:
        raise Refused(f'ManyDelimiters {" ".join(found)}')
    if not found:
        raise faults[0] if faults else Refused(f'NoDelimiter {quoted([first_line(text)])}')
    return found[0]


def plain(head):
    return re.sub(r'[\W_]', '', head).upper()


def column_at(given, cells, heads):
    """The column that an option names: by its number, from 1, or by its head."""
    if re.match(r'[0-9]{1,9}\Z', given):
        found = [int(given) - 1] if 1 <= int(given) <= len(cells) else []
    else:
        found = [place for place, head in enumerate(heads) if head.strip().casefold() == given.strip().casefold()]
    if not found:
        raise Refused(f'NoColumn {short(given)} among {quoted(cells)}')
    if len(found) > 1:
        raise Refused(f'ManyColumns {short(given)}')
    return found[0]


def one_of(found, cells, heads, what):
    """The one column that was found."""
    if not found:
        raise Refused(f'No{what}Column among {quoted(cells)}')
    if len(found) > 1:
        raise Refused(' '.join([f'Many{what}Columns', *(short(cells[place]) if heads else str(place + 1) for place in found)]))
    return found[0]


def named_so(heads, names):
    return [place for place, head in enumerate(heads) if plain(head) in names]


def columns_of(first, block, district):
    """Whether the first row has heads, and the places of the blocks' column and the districts', if the options name none."""
    likely = [place for place, cell in enumerate(first) if BLOCK_LIKE.match(cell.strip()) or EXPONENT.match(cell.strip())]
    heads = [] if likely else first
    if block is not None:
        block = column_at(block, first, heads)
    else:
        block = one_of(named_so(heads, BLOCKS) if heads else likely, first, heads, 'Id')
    if district is not None:
        district = column_at(district, first, heads)
    else:
        # of two columns without heads the other one
        others = [1 - block] if len(first) == 2 else []
        district = one_of(named_so(heads, DISTRICTS) if heads else others, first, heads, 'District')
    if block == district:
        raise Refused('SameColumn')
    return bool(heads), block, district
