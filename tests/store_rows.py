"""For tests/tables: an independent reader of stores, which goes by docs/dev/STORE-FORMAT.md ('Stores') alone. It takes a store's file
apart, down to the desk that its rows say, and asserts on the way what that page and the heads of the crates ('The store above its
pages') promise of them. Beside it a small writer, which puts rows into a store at rest, or takes them out, and makes one anew of rows.
"""
import collections, re

SECTOR = 4_096
OPEN = 0xa5
KINDS = 'congress', 'senate', 'house'
MOST_DISTRICTS = {'congress': 99, 'senate': 999, 'house': 999}
MOST_REVISIONS = 65_535
# how many chunks a part of a revision names, and how many districts a piece of a chunk has
PART, PIECE = 128, 512
VERSION = 2

Counters = collections.namedtuple('Counters', 'plan chunk load')
PlanRow = collections.namedtuple('PlanRow', 'number kind districts revisions')
Seal = collections.namedtuple('Seal', 'load blocks pairs')
Block = collections.namedtuple('Block', 'id city people')
# a plan that was read back: its row, the chunks of each revision by county, and the districts of each revision
Plan = collections.namedtuple('Plan', 'row chunks revisions')


def number(data, at=0, size=4):
    return int.from_bytes(data[at:at + size], 'big')


def fields(data, *sizes):
    """The numbers of so many bytes each that are all of these bytes."""
    assert len(data) == sum(sizes), (data, sizes)
    ends = [sum(sizes[:place]) for place in range(len(sizes))]
    return tuple(number(data, at, size) for at, size in zip(ends, sizes))


def packed(*numbers):
    """The bytes of numbers, each given with its size."""
    return b''.join(value.to_bytes(size, 'big') for value, size in numbers)


def parts(items, size):
    return [items[at:at + size] for at in range(0, len(items), size)]


# ---- pages
def layout(sectors):
    """How many pages a journal has, where its copies stand, and where the pages do."""
    journal, count = number(sectors[0], 12), number(sectors[0], 16)
    header = b'PLANDESK' + packed((1, 4), (journal, 4), (count, 4))
    assert sectors[0] == header.ljust(SECTOR, b'\0'), sectors[0][:20]
    assert 256 <= journal <= 65_536 and count >= 64, (journal, count)
    copies = 2 + (journal + 1 + 1_023) // 1_024
    assert len(sectors) == copies + journal + count, (len(sectors), journal, count)
    return journal, copies, copies + journal


def pages_of(data):
    """The pages of a store's file, overlaid by the journal's copies where it counts."""
    sectors = parts(data, SECTOR)
    assert len(sectors[-1]) == SECTOR, len(data)
    journal, copies, home = layout(sectors)
    pages = sectors[home:]
    if sectors[1][0] == OPEN:
        listed = [number(word) for word in parts(b''.join(sectors[2:copies]), 4)]
        assert listed[0] <= journal, listed[0]
        for page, copy in zip(listed[1:listed[0] + 1], sectors[copies:]):
            assert page < len(pages), page
            pages[page] = copy
    return pages


def free_in(pages):
    """The free pages, each of which names the next one; the last names 0."""
    page, count, found = number(pages[0], 4), number(pages[0], 8), []
    assert count < len(pages), count
    for _ in range(count):
        assert 0 < page < len(pages), page
        found.append(page)
        page = number(pages[page])
    assert page == 0 and len(set(found)) == len(found), (page, found)
    return found


# ---- the tree
def node(page):
    """A node's level and its entries: in a leaf rows, above it children behind their keys."""
    at, entries = 4, []
    for _ in range(number(page, 2, 2)):
        assert at + 3 <= SECTOR, at
        key, value = page[at], number(page, at + 1, 2)
        middle, end = at + 3 + key, at + 3 + key + value
        assert key <= 72 and value <= 1_024 and end <= SECTOR, (at, key, value)
        entries.append((page[at + 3:middle], page[middle:end]))
        at = end
    assert page[0] <= 5 and entries, (page[0], entries)
    return page[0], entries


def rises(bounds):
    """Each is below the next one; no bound stands above all."""
    return all(low < high for low, high in zip(bounds, bounds[1:]) if high is not None)


def rows_at(pages, page, level, low, high, used):
    """The rows of the part of the tree that begins at this page: they stand from the lower bound on and below the upper one."""
    assert 0 < page < len(pages) and page not in used, page
    used.add(page)
    found, entries = node(pages[page])
    keys = [key for key, _ in entries]
    assert found == level, (page, found, level)
    if level == 0:
        assert rises([*keys, high]) and low <= keys[0] != b'', (page, low, keys, high)
        return entries
    bounds = [low, *keys[1:], high]
    assert rises(bounds), (page, bounds)
    return [row for (_, child), low, high in zip(entries, bounds, bounds[1:])
            for row in rows_at(pages, *fields(child, 4), level - 1, low, high, used)]


# ---- rows, each a key and a value
def counters_row(plan, chunk, load):
    return b'A', packed((plan, 8), (chunk, 8), (load, 8))


def retired_row(plan):
    return b'D' + packed((plan, 8)), b''


def begun_row(load):
    return b'L' + packed((load, 8)), b''


def plan_row(name, number, kind, districts, revisions):
    return b'P' + name.encode(), packed((number, 8), (KINDS.index(kind), 1), (districts, 2), (revisions, 4))


def part_rows(plan, revision, chunks):
    """The rows of a revision, which name its chunks."""
    return [(b'R' + packed((plan, 8), (revision, 4), (index, 1)), packed(*((chunk, 8) for chunk in some)))
            for index, some in enumerate(parts(chunks, PART))]


def chunk_rows(chunk, districts):
    return [(b'k' + packed((chunk, 8), (index, 2)), packed(*((district, 2) for district in some)))
            for index, some in enumerate(parts(districts, PIECE))]


def seal_row(load, blocks, pairs):
    return b'S', packed((load, 8), (blocks, 4), (pairs, 4))


def version_row(version=VERSION):
    return b'V', packed((version, 4))


def holding_row(plan, chunk):
    """That a plan holds a chunk."""
    return b'H' + packed((plan, 8), (chunk, 8)), b''


def tally_row(chunk, count):
    """How many plans hold a chunk."""
    return b'K' + packed((chunk, 8)), packed((count, 8))


def load_rows(load, blocks, pairs):
    """The rows of a geography: its blocks rising, then its pairs rising."""
    begin = b'g' + packed((load, 8))
    return [(begin + b'b' + packed((place, 4)),
             packed((block.id, 8), (block.city is not None, 1), (block.city or 0, 4), (block.people, 4)))
            for place, block in enumerate(blocks)] + [
                (begin + b'p' + packed((place, 4)), packed((one, 4), (other, 4))) for place, (one, other) in enumerate(pairs)]


def plan_in(value):
    number, kind, districts, revisions = fields(value, 8, 1, 2, 4)
    assert kind < len(KINDS), kind
    row = PlanRow(number, KINDS[kind], districts, revisions)
    assert 1 <= districts <= MOST_DISTRICTS[row.kind] and revisions <= MOST_REVISIONS, row
    return row


def block_in(value):
    number, has, city, people = fields(value, 8, 1, 4, 4)
    assert number < 10 ** 15 and has in (0, 1) and (has or city == 0), value
    return Block(number, city if has else None, people)


def list_in(value, size, most):
    assert 0 < len(value) <= size * most, value
    return [number for part in parts(value, size) for number in fields(part, size)]


def nothing_in(value):
    assert value == b'', value


def tally_in(value):
    count, = fields(value, 8)
    assert count > 0, value
    return count


def version_in(value):
    assert value == packed((VERSION, 4)), value
    return VERSION


# of a key's tag: the sizes of the numbers behind it, and what a value says
LAYOUTS = {
    'A': ((), lambda value: Counters(*fields(value, 8, 8, 8))), 'D': ((8,), nothing_in), 'L': ((8,), nothing_in),
    'R': ((8, 4, 1), lambda value: list_in(value, 8, PART)), 'S': ((), lambda value: Seal(*fields(value, 8, 4, 4))),
    'gb': ((8, 4), block_in), 'gp': ((8, 4), lambda value: fields(value, 4, 4)),
    'k': ((8, 2), lambda value: list_in(value, 2, PIECE)),
    'H': ((8, 8), nothing_in), 'K': ((8,), tally_in), 'V': ((), version_in)}


def said(rows):
    """What the rows say: for each tag what stands under which name or numbers."""
    told = {tag: {} for tag in [*LAYOUTS, 'P']}
    for key, value in rows.items():
        tag, rest = chr(key[0]), key[1:]
        if tag == 'P':
            assert re.fullmatch(rb'[A-Za-z0-9._-]{1,64}', rest), key
            told[tag][rest.decode()] = plan_in(value)
            continue
        if tag == 'g':
            tag, rest = tag + chr(rest[8]), rest[:8] + rest[9:]
        assert tag in LAYOUTS, key
        sizes, says = LAYOUTS[tag]
        told[tag][fields(rest, *sizes)] = says(value)
    return told


# ---- the desk
class Store:
    """A store's file: its pages, its free ones, its rows by their keys, how many levels the tree has, and what the rows say."""

    def __init__(self, path):
        with open(path, 'rb') as file:
            self.pages = pages_of(file.read())
        self.free, used, root = free_in(self.pages), set(), number(self.pages[0])
        rows = rows_at(self.pages, root, self.pages[root][0], b'', None, used) if root else []
        assert sorted([0, *self.free, *used]) == list(range(len(self.pages))), (self.free, used)
        self.levels = self.pages[root][0] + 1 if root else 0
        self.rows = dict(rows)
        assert len(self.rows) == len(rows) and list(self.rows) == sorted(self.rows)


class Desk:
    """The desk that a store's rows say, once they are judged: its version, its geography, or none, and its plans by name; the
    numbers that come next, the plans that were taken away, the loads that were begun, the rows that a sweep has to take out, and
    how many rows it tells then."""

    def __init__(self, rows):
        told = said(rows)
        self.told, self.next, self.version = told, told['A'].get((), Counters(0, 0, 0)), told['V'].get((), 1)
        self.retired, self.begun = ({number for number, in told[tag]} for tag in 'DL')
        self.seal = told['S'].get(())
        self.geography = self.sealed() if self.seal else None
        self.parts_by_plan, self.pieces_by_chunk = collections.defaultdict(dict), collections.defaultdict(dict)
        for (plan, *place), chunks in told['R'].items():
            self.parts_by_plan[plan][tuple(place)] = chunks
        for (chunk, index), districts in told['k'].items():
            self.pieces_by_chunk[chunk][index] = districts
        # the chunks that the revisions of each plan name, and the plans that hold each chunk
        self.named = {plan: {chunk for named in mine.values() for chunk in named} for plan, mine in self.parts_by_plan.items()}
        self.holders = collections.defaultdict(set)
        for plan, chunk in told['H']:
            self.holders[chunk].add(plan)
        self.are_numbered()
        self.are_owned()
        self.are_held()
        self.plans = {name: self.plan(row) for name, row in told['P'].items()}
        self.left = self.leftovers(rows)
        # beside a holding row that goes, a number of holders changes or goes too
        lets_go = sum(plan in self.retired for plan, _ in told['H'])
        self.rows_left = len({key for key in self.left if key[:1] != b'K'}) + lets_go

    def sealed(self):
        """The blocks and pairs of the load that the seal names."""
        load, blocks, pairs = self.seal
        assert load not in self.begun, load
        found = [{place: row for (owner, place), row in self.told[tag].items() if owner == load} for tag in ('gb', 'gp')]
        assert [list(rows) for rows in found] == [list(range(blocks)), list(range(pairs))], (self.seal, found)
        blocks, pairs = (list(rows.values()) for rows in found)
        ids = [block.id for block in blocks]
        assert rises(ids) and len({number // 10 ** 13 for number in ids}) == 1, ids
        assert rises(pairs) and all(one < other < len(blocks) for one, other in pairs), pairs
        return blocks, pairs

    def are_numbered(self):
        """Each number in use is below the next one; no two plans have one number, and none has that of a plan that went."""
        numbers = [row.number for row in self.told['P'].values()]
        assert len({*numbers, *self.retired}) == len(numbers) + len(self.retired), (numbers, self.retired)
        chunks = [chunk for named in self.told['R'].values() for chunk in named]
        loads = [*self.begun, *([self.seal.load] if self.seal else [])]
        for used, above in zip(([*numbers, *self.retired], chunks, loads), self.next):
            assert max(used, default=-1) < above, (used, self.next)

    def are_owned(self):
        """Each row belongs to something: a part to a plan, a chunk to the plans that name it, a row of a load to a load. In a store
        of version 1 one plan alone names a chunk."""
        known = {row.number for row in self.told['P'].values()} | self.retired
        owners = collections.defaultdict(set)
        for plan, chunks in self.named.items():
            assert plan in known, plan
            for chunk in chunks:
                owners[chunk].add(plan)
        assert self.version == VERSION or all(len(plans) == 1 for plans in owners.values()), owners
        assert {chunk for chunk, _ in self.told['k']} <= set(owners), (self.told['k'], owners)
        loads = {load for tag in ('gb', 'gp') for load, _ in self.told[tag]}
        assert loads <= self.begun | ({self.seal.load} if self.seal else set()), loads
        assert self.seal or not self.told['P'], self.told['P']

    def are_held(self):
        """Each holding row is of a plan and of a chunk that this plan names; and of each chunk that has one, and of no other, a row
        tells how many they are. Where the version row stands, each plan that is there holds all chunks that it names."""
        for plan, chunk in self.told['H']:
            assert chunk in self.named.get(plan, ()), (plan, chunk)
        tallies = {chunk: count for (chunk,), count in self.told['K'].items()}
        assert tallies == {chunk: len(plans) for chunk, plans in self.holders.items()}, (tallies, self.holders)
        numbers = [row.number for row in self.told['P'].values() if self.version == VERSION]
        for plan in numbers:
            assert all(plan in self.holders[chunk] for chunk in self.named.get(plan, ())), (plan, self.named[plan])

    def counties(self):
        """How many blocks each county has, in their order."""
        return list(collections.Counter(block.id // 10 ** 10 for block in self.geography[0]).values())

    def list_of(self, found, size):
        """A list whose parts stand under numbers from 0 on, and are all full but the last."""
        assert list(found) == list(range(len(found))), found
        items = [item for part in found.values() for item in part]
        assert list(found.values()) == parts(items, size), found
        return items

    def plan(self, row):
        """A plan with its revisions, of which each names a chunk for each county, and these have a district for each block."""
        mine = self.parts_by_plan[row.number]
        assert {revision for revision, _ in mine} == set(range(1, row.revisions + 1)), (row, mine)
        chunks = [self.list_of({index: named for (k, index), named in mine.items() if k == revision}, PART)
                  for revision in range(1, row.revisions + 1)]
        revisions = []
        for named in chunks:
            cut = [self.list_of(self.pieces_by_chunk[chunk], PIECE) for chunk in named]
            assert [len(districts) for districts in cut] == self.counties(), (row, named)
            revisions.append([district for districts in cut for district in districts])
            assert max(revisions[-1]) <= row.districts, (row, revisions[-1])
        return Plan(row, chunks, revisions)

    def leftovers(self, rows):
        """The keys of the rows of plans that were taken away and of loads that were begun. A chunk that a plan holds which is there
        stays."""
        gone = {chunk for plan in self.retired for chunk in self.named.get(plan, ()) if self.holders[chunk] <= self.retired}
        owners = {'D': self.retired, 'H': self.retired, 'R': self.retired, 'K': gone, 'k': gone, 'L': self.begun, 'g': self.begun}
        return {key for key in rows if number(key, 1, 8) in owners.get(chr(key[0]), ())}


def desk_in(path):
    """The desk in a store's file, and the store."""
    store = Store(path)
    return Desk(store.rows), store


# ---- the writer
def leaf_for(pages, key):
    """The page of the leaf in which a key's row stands, or belongs."""
    page = number(pages[0])
    while page:
        level, entries = node(pages[page])
        if level == 0:
            break
        page = number([child for place, (bound, child) in enumerate(entries) if place == 0 or bound <= key][-1])
    return page


def written(level, entries):
    """The node with these entries."""
    body = b''.join(packed((len(key), 1), (len(value), 2)) + key + value for key, value in entries)
    assert len(body) <= SECTOR - 4, len(body)
    return (packed((level, 1), (0, 1), (len(entries), 2)) + body).ljust(SECTOR, b'\0')


def put_page(path, page, data):
    """Puts a page into a store whose journal doesn't count."""
    with open(path, 'r+b') as file:
        sectors = parts(file.read(), SECTOR)
        assert sectors[1][0] != OPEN, path
        file.seek((layout(sectors)[2] + page) * SECTOR)
        file.write(data)


def change(path, *rows):
    """Puts rows into a store whose journal doesn't count, and takes out those whose value is None, each in the leaf where it
    belongs."""
    for key, value in rows:
        with open(path, 'rb') as file:
            pages = pages_of(file.read())
        page = leaf_for(pages, key)
        assert page, path
        entries = dict(node(pages[page])[1])
        entries[key] = value
        left = sorted(row for row in entries.items() if row[1] is not None)
        assert left, key
        put_page(path, page, written(0, left))


def filled(entries):
    """The entries of nodes that are each as full as may be."""
    some, room = [], SECTOR - 4
    for key, value in entries:
        size = 3 + len(key) + len(value)
        if size > room:
            yield some
            some, room = [], SECTOR - 4
        some.append((key, value))
        room -= size
    if some:
        yield some


def rebuild(path, rows):
    """Puts these rows in the place of all that a store's pages hold, from page 1 on. Its journal doesn't count then."""
    with open(path, 'rb') as file:
        sectors = parts(file.read(), SECTOR)
    home = layout(sectors)[2]
    pages, level, entries = [b''], 0, sorted(rows.items())
    while entries:
        above = []
        for some in filled(entries):
            above.append((some[0][0], packed((len(pages), 4))))
            pages.append(written(level, some))
        level, entries = level + 1, above if len(above) > 1 else []
    count, free = len(sectors) - home, len(pages)
    pages += [packed(((page + 1) % count, 4)) for page in range(free, count)]
    assert len(pages) == count, (len(pages), count)
    pages[0] = packed((free - 1, 4), (free % count, 4), (count - free, 4))
    with open(path, 'wb') as file:
        file.write(b''.join([sectors[0], bytes(SECTOR), *sectors[2:home], *(page.ljust(SECTOR, b'\0') for page in pages)]))


def make_old(path):
    """Makes a store of version 1, which has neither holdings nor the version row."""
    rebuild(path, {key: value for key, value in Store(path).rows.items() if key[:1] not in (b'H', b'K', b'V')})
