"""For tools/plan and tools/audit: districts that have names, and the table of their numbers."""
import csv, io, re
from collections import Counter

from audit import Refused, within
from plan_file import bytes_of, quoted, text_of
from plan_table import DELIMITERS, delimiter_of, rows_of

UNASSIGNED = '', 'ZZ', 'ZZZ'
# the number with which a name ends, as District 12 and SD-07
ENDS = re.compile(r'.*?(?<![0-9])0*([1-9][0-9]{0,2})\Z', re.S)
# what stands in the table for a number that somebody has to put there
OPEN = '?'


def is_unassigned(cell):
    return cell.upper() in UNASSIGNED


def letters_of(path):
    """The number of each name in a table of two columns; a name that stands for no district has ZZ or nothing."""
    with within(path):
        try:
            text = text_of(bytes_of(path), Counter())
            rows = [(line, cells) for line, _, cells in rows_of(text, DELIMITERS[delimiter_of(text)]) if cells]
        except Refused as fault:
            raise Refused(f'BadLetters {fault.code}') from None
        found = {}
        for line, cells in rows:
            name, number = [cell.strip() for cell in cells] if len(cells) == 2 else ('', '')
            if not name or name in found or not (number in UNASSIGNED or re.match(r'0*[1-9][0-9]{0,2}\Z', number)):
                raise Refused(f'BadLetters line {line} {quoted(cells)}')
            found[name] = number.lstrip('0')
    return found


def suggested(names):
    """A number for each name: the one with which it ends, if no other name ends with it."""
    matches = {name: ENDS.match(name) for name in names}
    ends = Counter(int(match[1]) for match in matches.values() if match)
    return {name: match[1] if match and ends[int(match[1])] == 1 else OPEN for name, match in matches.items()}


def letters_table(names):
    """The table of these names, as `--letters` reads it when each question mark was replaced."""
    said = io.StringIO()
    rows = csv.writer(said, lineterminator='\n')
    found = suggested(names)
    rows.writerows(sorted(found.items(), key=lambda row: (row[1] == OPEN, int(row[1]) if row[1] != OPEN else 0, row[0])))
    return said.getvalue()
