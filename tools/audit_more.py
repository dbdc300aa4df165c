"""For tools/report: what a page says beyond its report: which files were audited, names, the pieces of districts, the blocks
without a district, and links."""
import itertools
from collections import Counter
from dataclasses import dataclass
from html import escape

from audit import block_words, count, grouped
from audit_inputs import Made
from header_file import Names
from page_parts import element, table
from plan_pieces import Ground

# so many blocks of a piece, and of a county, are listed on a page, and so many pieces
FEW, SOME, MOST = 12, 20, 300
COUNTIES = 3


@dataclass(frozen=True)
class More:
    """Each as far as it is known; a link is its words and its address, the notes say what was changed in a plan's file, and the
    facts are more terms with their HTML."""
    names: Names = Names()
    ground: Ground = None
    made: Made = None
    links: tuple = ()
    notes: tuple = ()
    facts: tuple = ()


def links_part(links):
    if not links:
        return ''
    return element('nav', ' '.join(element('a', escape(words), href=address) for words, address in links)) + '\n'


def found_again(ground):
    """Which figures of the report were found again from the files of its blocks."""
    found = ['the blocks without a district'] + (['the people of each district'] if ground.people is not None else []) + \
        (['the districts that are not contiguous'] if ground.pairs is not None else [])
    return f'For this page the plan was read again; it gives the same as the report for {", ".join(found)}.'


def made_part(made, ground):
    """What was audited, as far as somebody told it, and when the page was made."""
    said = [f'Asked of a server: {made.source}.'] if made.source else []
    said.append(f'The program: {made.version}.' if made.version else 'The version of the program is not known.')
    if len(made.files) == 1:
        said.append('No other file was named, so this page does not say which plan, census files and neighbours were audited.')
    said += [found_again(ground)] if ground else []
    said.append(f'This page was made on {made.date}, UTC.')
    rows = [(escape(file.name), grouped(file.size), element('code', file.digest)) for file in made.files]
    heads = ('File', False), ('Bytes', True), ('SHA-256', False)
    return ''.join(element('p', escape(line)) for line in said) + \
        table('Whoever has a file of the same SHA-256 has the same bytes.', heads, rows, labelled=True, class_='stacks')


def counties_of(blocks, names):
    """The counties in which blocks lie, the first ones by their names."""
    found = sorted({block[2:5] for block in blocks})
    more = [f'and {grouped(len(found) - COUNTIES)} more'] if len(found) > COUNTIES else []
    return ', '.join([*map(names.county, found[:COUNTIES]), *more])


def numbered(pieces):
    """Each piece, which one it is of its district's, and how many there are of them."""
    of, place = Counter(piece.district for piece in pieces), Counter()
    for piece in pieces:
        place[piece.district] += 1
        yield piece, place[piece.district], of[piece.district]


def first_blocks(blocks, most):
    """The first blocks, each on a line of its own, and how many more there are."""
    shown = [block_words(block) for block in blocks[:most]]
    if len(blocks) > most:
        shown.append(f'and {grouped(len(blocks) - most)} more')
    return ''.join(element('small', escape(line)) for line in shown)


def pieces_part(ground, names):
    """A table of the pieces of all districts that have several."""
    rows, pieces = [], ground.pieces()
    for piece, place, of in itertools.islice(numbered(pieces), MOST):
        known = [grouped(piece.people)] if ground.people is not None else []
        few = first_blocks(piece.blocks, FEW if len(piece.blocks) <= FEW else 1)
        rows.append((str(piece.district), f'{place} of {of}', grouped(len(piece.blocks)), *known, few,
                     escape(counties_of(piece.blocks, names))))
    people = [('People', True)] if ground.people is not None else []
    heads = [('District', False), ('Piece', False), ('Blocks', True), *people, ('Which blocks', False), ('Counties', False)]
    which = 'All' if len(pieces) <= MOST else f'The first {MOST} of {grouped(len(pieces))}'
    caption = f'{which} pieces of these districts, by the plan and the neighbour file.'
    return table(caption, heads, rows, labelled=True, class_='stacks')


def by_county(blocks):
    found = {}
    for block in blocks:
        found.setdefault(block[2:5], []).append(block)
    return sorted(found.items())


def unassigned_part(ground, names):
    """A table of the blocks without a district, by county."""
    blocks = ground.unassigned()
    rows = []
    for county, members in by_county(blocks):
        known = [grouped(ground.people_in(members))] if ground.people is not None else []
        rows.append((escape(names.county(county)), grouped(len(members)), *known, first_blocks(members, SOME)))
    people = [('People', True)] if ground.people is not None else []
    heads = [('County', False), ('Blocks', True), *people, ('Which blocks', False)]
    return table(f'{count(len(blocks), "block")} without a district, by county.', heads, rows, labelled=True, class_='stacks')
