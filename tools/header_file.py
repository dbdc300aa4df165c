"""For tools/report: the names of counties and cities in the census's geographic header, and the people of each block.

docs/INPUT-FILES.md has the fields that `plandesk` reads; the names are in field 88 of the records of counties and places.
"""
import re
from dataclasses import dataclass, field

from audit import Refused, block_words

FIELDS, SEGMENT_FIELDS = 97, 149
LEVEL, COMPONENT, RECORD, STATE, COUNTY, PLACE, TRACT, BLOCK, NAME = 3, 5, 8, 13, 15, 30, 33, 35, 88


@dataclass(frozen=True)
class Names:
    """The names by the codes of a report."""
    counties: dict = field(default_factory=dict)
    cities: dict = field(default_factory=dict)

    def county(self, code):
        return f'{code} {self.counties[code]}' if code in self.counties else code

    def city(self, code):
        return f'{code} {self.cities[code]}' if code in self.cities else code

    def of_block(self, block):
        """The block's number in its parts, and its county's name."""
        name = self.counties.get(block[2:5])
        return block_words(block) + (f' ({name})' if name else '')


def lines_of(path, fields, code):
    """Each line of a file of the census, with its number from 1."""
    try:
        with open(path, 'rb') as file:
            for number, line in enumerate(file, 1):
                if line.count(b'|') != fields - 1:
                    raise Refused(f'{code} line {number}', place=path)
                yield number, line
    except (OSError, ValueError):
        raise Refused('Unreadable', place=path) from None


def header_lines(path, levels):
    """The fields, from 1, of the header's lines of these levels, which are of a whole area."""
    for number, line in lines_of(path, FIELDS, 'BadHeader'):
        first = line.split(b'|', COMPONENT)
        if first[LEVEL - 1] in levels and first[COMPONENT - 1] == b'00':
            yield number, [b'', *line.split(b'|')]


def name_of(field):
    """The census's files have their names in Latin-1."""
    try:
        return field.decode('utf-8').strip()
    except UnicodeDecodeError:
        return field.decode('latin-1').strip()


def names_of(path):
    """The names of the counties and places of a header."""
    counties, cities = {}, {}
    for _, found in header_lines(path, (b'050', b'160')):
        names, code = (counties, found[COUNTY]) if found[LEVEL] == b'050' else (cities, found[PLACE])
        name = name_of(found[NAME])
        if name:
            names[code.decode('latin-1')] = name
    if not counties and not cities:
        raise Refused('NoNames', place=path)
    return Names(counties, cities)


def digits(field, code, number, path):
    if not re.match(rb'[0-9]{1,10}\Z', field):
        raise Refused(f'{code} line {number}', place=path)
    return int(field)


def block_lines(header):
    """The number of each block's record, and the block."""
    for number, found in header_lines(header, (b'750',)):
        block = b''.join(found[place] for place in (STATE, COUNTY, TRACT, BLOCK)).decode('latin-1')
        if not re.match(r'[0-9]{15}\Z', block):
            raise Refused(f'BadHeader line {number}', place=header)
        yield digits(found[RECORD], 'BadHeader', number, header), block


def blocks_of(header):
    """The blocks of the state."""
    found = frozenset(block for _, block in block_lines(header))
    if not found:
        raise Refused('NoStateBlocks', place=header)
    return found


def people_of(header, segment):
    """The people of each block: the first figure of the first segment, by the number of the block's record."""
    records, people = dict(block_lines(header)), {}
    for number, line in lines_of(segment, SEGMENT_FIELDS, 'BadSegment'):
        record, count = line.split(b'|', 6)[4:6]
        block = records.get(digits(record, 'BadSegment', number, segment))
        if block is not None:
            people[block] = digits(count, 'BadSegment', number, segment)
    return people
