"""The files of a made state, and runs of the program over stores in files: what tests/loads, tests/stores, tests/faults,
tests/spoiled, tests/sweeps, tests/seats, tests/tables and tests/power share.

The files are put together by the rules of docs/INPUT-FILES.md.
"""
import os, resource, subprocess

from tried import program

here = os.path.dirname(os.path.abspath(__file__))
WIDTH = 50
SECTOR = 4_096
FILES = 'geo', 'seg1', 'seg2', 'seg3', 'gal'


class Block:
    def __init__(self, place, county):
        self.record = place + 2
        self.county = county
        self.tract, self.number = 100 + place // 60, 1_000 + place % 60
        self.people = place * 7_919 % 97

    def id(self):
        return f'19{self.county:03}{self.tract:06}{self.number:04}'


def line(fields, values):
    return '|'.join(values.get(n, '') for n in range(1, fields + 1)) + '\n'


def gal(blocks, near):
    """A neighbour file in which these are the neighbours of each block."""
    said = [f'{block.id()} {len(others)}\n{" ".join(other.id() for other in others)}\n' for block, others in zip(blocks, near)]
    return f'{len(blocks)}\n' + ''.join(said)


def grid(blocks):
    """The blocks in rows of a grid, each a neighbour of those beside, above and below it."""
    for place in range(len(blocks)):
        near = [other for other in (place - WIDTH, place + WIDTH) if 0 <= other < len(blocks)]
        near += [other for other in (place - 1, place + 1) if 0 <= other < len(blocks) and other // WIDTH == place // WIDTH]
        yield [blocks[other] for other in near]


def made_state(count, counties):
    """A state of so many blocks and counties: its files' texts and its blocks."""
    blocks = [Block(place, place * counties // count * 2 + 1) for place in range(count)]
    total = sum(block.people for block in blocks)
    geo = [line(97, {3: '040', 5: '00', 8: '0000001', 13: '19'})]
    geo += [line(97, {3: '750', 5: '00', 8: f'{b.record:07}', 13: '19', 15: f'{b.county:03}', 30: '21000', 31: 'C1',
                      33: f'{b.tract:06}', 35: f'{b.number:04}'}) for b in blocks]
    people = [(1, total)] + [(b.record, b.people) for b in blocks]
    segments = [''.join(line(fields, {5: f'{record:07}', 6: str(count)}) for record, count in people)
                for fields in (149, 152, 15)]
    return dict(zip(FILES, [''.join(geo), *segments, gal(blocks, grid(blocks))])), blocks


def put(path, data):
    with open(path, 'w' if isinstance(data, str) else 'wb') as file:
        file.write(data)
    return path


def held(path):
    with open(path, 'rb') as file:
        return file.read()


def ends(name, words, output, errors, status):
    """The program, run with these words, prints, tells and ends so."""
    done = subprocess.run([program, *words], stdin=subprocess.DEVNULL, capture_output=True, text=True, timeout=100)
    assert (done.stdout, done.stderr, done.returncode) == (output, errors, status), (name, done)


def runs(name, words, output, errors, status):
    ends(name, words, output, errors, status)
    print(f'{name}: as it has to be')


def limited(words, limit=None, output=subprocess.PIPE):
    """What the program prints, what it tells, and its status, where no file may grow beyond so many bytes: a write behind them
    fails, and one across them is short. The signal of such a write is to be ignored here, and is so there."""
    before = resource.getrlimit(resource.RLIMIT_FSIZE)
    resource.setrlimit(resource.RLIMIT_FSIZE, (before[0] if limit is None else limit, before[1]))
    try:
        done = subprocess.run([program, *words], stdin=subprocess.DEVNULL, stdout=output, stderr=subprocess.PIPE, text=True,
                              timeout=100, restore_signals=False)
    finally:
        resource.setrlimit(resource.RLIMIT_FSIZE, before)
    return done.stdout, done.stderr, done.returncode


def printed_in_part(words, path, limit, room):
    """The same where standard output, a file, has room for so many bytes before the limit."""
    with open(path, 'w+b', buffering=0) as output:
        output.seek(limit - room)
        _, errors, status = limited(words, limit, output)
        output.seek(limit - room)
        return output.read().decode(), errors, status


def loading(store, given):
    """The words that load the files at these paths into a store."""
    return ['load', store] + [word for role in FILES for word in (f'--{role}', given[role])]


def formatting(store, sectors, journal=256):
    return ['format', store, '--sectors', str(sectors), '--journal', str(journal)]


def formatted(store, sectors, journal=256):
    ends(f'a store of {sectors} sectors', formatting(store, sectors, journal),
         f'formatted {sectors} sectors, {journal} journal pages\n', '', 0)
    assert os.path.getsize(store) == sectors * SECTOR, store
    return store
