"""For tests/clauses: states that are put together from blocks and pairs of neighbours, their files and their plans.

The files are put together by the rules of docs/INPUT-FILES.md.
"""
import collections
from checking import STATE, block, header, neighbours, plan, segment

# its 15 digits, its people, its place and the place's class
Block = collections.namedtuple('Block', 'digits people place place_class', defaults=('', ''))


def written(record, given):
    digits = given.digits
    return block(record, digits[2:5], given.place, given.place_class, digits[11:], digits[:2], digits[5:11])


class State:
    """The files stand in the order of the blocks; a pair are two places among them, from 0."""
    def __init__(self, blocks, pairs=()):
        self.ids = [each.digits for each in blocks]
        numbers = [f'{number:07}' for number in range(1, len(blocks) + 2)]
        people = [each.people for each in blocks]
        counts = [str(count) for count in (sum(people), *people)]
        near = [[] for _ in blocks]
        for one, other in pairs:
            near[one].append(other)
            near[other].append(one)
        state = {**STATE, 13: self.ids[0][:2]}
        nobody = ['0'] * len(counts)
        self.files = {'geo': header([state, *map(written, numbers[1:], blocks)]),
                      'seg1': segment(149, counts, numbers=numbers), 'seg2': segment(152, nobody, numbers=numbers),
                      'seg3': segment(15, nobody, numbers=numbers), 'gal': neighbours(*near, ids=self.ids)}

    def plan(self, districts):
        """Of 0 the block is unassigned, and of None it isn't listed."""
        listed = [(digits, district or 'ZZ') for digits, district in zip(self.ids, districts) if district is not None]
        return plan(*(code for _, code in listed), ids=[digits for digits, _ in listed])
