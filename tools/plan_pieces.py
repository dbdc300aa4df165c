"""For tools/report: the pieces of districts that aren't contiguous, and the blocks without a district, found anew from a plan and
its neighbours, which have to agree with the report."""
import re
from dataclasses import dataclass
from functools import cached_property

from audit import Refused
from joined import roots

LARGEST = 1 << 30
LINE = re.compile(rb'([0-9]{15})\|([0-9]{1,3}|ZZ|ZZZ|)\Z')
MOST = 4096


@dataclass(frozen=True)
class Piece:
    """A part of a district that holds together: its blocks, rising, and its people, if they are known."""
    district: int
    blocks: list
    people: int


@dataclass(frozen=True)
class Ground:
    """The district of each block, by the blocks, which rise; 0 is none. The pairs are of places among them, and are none where no
    neighbours are known; so are the people."""
    districts: dict
    pairs: list
    people: dict

    def people_in(self, blocks):
        return None if self.people is None else sum(self.people[block] for block in blocks)

    def unassigned(self):
        return [block for block, district in self.districts.items() if district == 0]

    @cached_property
    def found(self):
        """The pieces, which are searched for once."""
        if self.pairs is None:
            return []
        blocks, of = list(self.districts), list(self.districts.values())
        found = {}
        for place, root in enumerate(roots(len(blocks), ((a, b) for a, b in self.pairs if of[a] == of[b] != 0))):
            if of[place]:
                found.setdefault((of[place], root), []).append(blocks[place])
        by_district = {}
        for (district, _), members in found.items():
            by_district.setdefault(district, []).append(Piece(district, members, self.people_in(members)))
        return [piece for _, pieces in sorted(by_district.items()) if len(pieces) > 1
                for piece in sorted(pieces, key=lambda piece: (-(piece.people or 0), -len(piece.blocks), piece.blocks[0]))]

    def pieces(self):
        """The pieces of each district that has several of them: the one with the most people first, or with the most blocks."""
        return self.found

    def gaps(self, districts):
        """What a report has in `contiguity`."""
        used, pieces = set(self.districts.values()), {}
        for piece in self.pieces():
            pieces.setdefault(piece.district, []).append(piece.blocks[0])
        for district in range(1, districts + 1):
            if district in pieces:
                first, second, *_ = sorted(pieces[district])
                yield {'district': district, 'from': first, 'to': second}
            elif district not in used:
                yield {'district': district}

    def populations(self, districts):
        found = [0] * (districts + 1)
        for block, district in self.districts.items():
            found[district] += self.people[block]
        return found[1:]


def read_file(path):
    try:
        with open(path, 'rb') as file:
            found = file.read(LARGEST + 1)
    except (OSError, ValueError):
        raise Refused('Unreadable', place=path) from None
    if len(found) > LARGEST:
        raise Refused('TooLarge', place=path)
    return found


def read_plan(text):
    """The district of each block that a block assignment file lists; 0 is none."""
    found = {}
    lines = [line.removesuffix(b'\r') for line in text.split(b'\n')]
    if lines[0] != b'BLOCKID|DISTRICT':
        raise Refused('BadPlan line 1')
    for number, line in enumerate(lines[1:], 2):
        match = LINE.match(line)
        block = match and match[1].decode()
        if line and (match is None or block in found):
            raise Refused(f'BadPlan line {number}')
        if match:
            found[block] = int(match[2]) if match[2].isdigit() else 0
    return found


def number_at(words, at):
    """The number at this place among the words."""
    if at >= len(words) or not re.match(rb'[0-9]{1,10}\Z', words[at]):
        raise Refused(f'BadNeighbours word {at + 1}')
    return int(words[at])


def read_neighbours(text):
    """The blocks of a neighbour file, which rise, and its pairs, by places among them."""
    head, _, rest = text.partition(b'\n')
    heads, words, at, near = head.split(), rest.split(), 0, {}
    if len(heads) in (0, 2, 3):
        raise Refused('BadNeighbours word 0')
    units = number_at(heads[:1] if len(heads) == 1 else heads[1:2], 0)
    while len(near) < units:
        number = number_at(words, at + 1)
        others = words[at + 2:at + 2 + number]
        if words[at] in near or number > MOST or len(others) < number:
            raise Refused(f'BadNeighbours word {at + 1}')
        near[words[at]] = at + 2, others
        at += 2 + number
    if at < len(words):
        raise Refused(f'BadNeighbours word {at + 1}')
    places = {word: place for place, word in enumerate(sorted(near))}
    pairs = []
    for word, (begins, others) in near.items():
        for number, other in enumerate(others):
            if other not in places:
                raise Refused(f'BadNeighbours word {begins + number + 1}')
            pairs.append((places[word], places[other]))
    return [word.decode('latin-1') for word in places], pairs


def ground_of(plan, near, people):
    """What the plan and the neighbours say, and the people, which may be none. A plan need not list each block."""
    blocks, pairs = near if near is not None else (sorted(plan), None)
    known = set(blocks)
    if not plan.keys() <= known:
        raise Refused('Differs blocks')
    if people is not None and people.keys() != known:
        raise Refused('Differs people')
    return Ground({block: plan.get(block, 0) for block in blocks}, pairs, people)


def agree(ground, report):
    """That a report is of this plan and of these neighbours and people."""
    if max(ground.districts.values(), default=0) > report.districts:
        raise Refused('Differs districts')
    if len(ground.unassigned()) != report.unassigned:
        raise Refused('Differs unassigned')
    if ground.people is not None and (ground.populations(report.districts) != report.populations or
                                      sum(ground.people.values()) != report.population):
        raise Refused('Differs populations')
    if ground.pairs is not None and list(ground.gaps(report.districts)) != report.contiguity:
        raise Refused('Differs contiguity')
