"""For tests/checks, tests/clauses, tests/census and tests/reads: the files of an invented state of four blocks in two counties, and
runs of the program over texts, which it reads from files, or from pipes in pieces.

tried.py finds the program.
"""
import json, os, subprocess, tempfile, threading
from pathlib import Path

from tried import program

here = os.path.dirname(os.path.abspath(__file__))
NOWHERE = Path(here, 'nowhere')
NUMBERS = '0000001', '0000002', '0000003', '0000004', '0000005'
PEOPLE = '2000', '505', '505', '495', '495'
NOBODY = '0', '0', '0', '0', '0'
IDS = '190010001001001', '190010001001002', '190030001001001', '190030001001002'
COUNTS = 'blocks 4\ncounties 2\npopulation 2000\ncounty 001 1010\ncounty 003 990\n'


def line(fields, fill, values, end='\n'):
    """A line of so many fields: nothing in the first four, and the fill in the others, but for those that have a value."""
    return '|'.join(values.get(n, '' if n < 5 else fill) for n in range(1, fields + 1)) + end


def block(record, county, place, place_class, number, state='19', tract='000100'):
    return {3: '750', 5: '00', 8: record, 13: state, 15: county, 30: place, 31: place_class, 33: tract, 35: number}


STATE = {3: '040', 5: '00', 8: '0000001', 13: '19'}
BLOCKS = [block('0000002', '001', '00100', 'C1', '1001'), block('0000003', '001', '00100', 'C1', '1002'),
          block('0000004', '003', '00100', 'C1', '1001'), block('0000005', '003', '00300', 'U1', '1002')]


def header(lines, mark='', end='\n'):
    """The geographic header with these lines, and the mark in field 88 of each."""
    return ''.join(line(97, '', {**values, 88: mark}, end) for values in lines)


def segment(fields, people, end='\n', numbers=NUMBERS):
    return ''.join(line(fields, '0', {5: number, 6: count}, end) for number, count in zip(numbers, people))


def census(people=PEOPLE, mark='', end='\n', **others):
    """The census files of the state, but for those that are given."""
    texts = {'geo': header([STATE, *BLOCKS], mark, end), 'seg1': segment(149, people, end), 'seg2': segment(152, NOBODY, end),
             'seg3': segment(15, NOBODY, end)}
    return {**texts, **others}


def neighbours(*lists, ids=IDS):
    """A neighbour file: for each block the places of its neighbours, from 0."""
    said = [f'{len(ids)}\n']
    for unit, near in zip(ids, lists):
        said.append(f'{unit} {len(near)}\n')
        if near:
            said.append(' '.join(ids[other] for other in near) + '\n')
    return ''.join(said)


def plan(*districts, ids=IDS):
    return 'BLOCKID|DISTRICT\n' + ''.join(f'{block}|{district}\n' for block, district in zip(ids, districts))


FIRST, SECOND, THIRD, FOURTH = IDS
GRID, COUNTIES = neighbours([1, 2], [0, 3], [0, 3], [1, 2]), plan(1, 1, 2, 2)
# one neighbour file in three forms: the first block beside the second and the third, and the fourth beside none
THREE = neighbours([1, 2], [0], [0], [])
ISLAND = THREE.replace('4', '0 4 iowa BLOCKID', 1)
ISLANDS = ISLAND, THREE.replace(f'{SECOND} {THIRD}', f'{SECOND}\t{THIRD}').replace('\n', '\r\n')[:-2], ISLAND + '\n'
# each two blocks are a district in one of three plans, whose gaps are these
GAPS = [{'district': 1, 'from': FIRST, 'to': FOURTH}, {'district': 2, 'from': SECOND, 'to': THIRD}]
PAIRS = (((1, 1, 2, 2), [{'district': 2, 'from': THIRD, 'to': FOURTH}]),
         ((1, 2, 1, 2), [{'district': 2, 'from': SECOND, 'to': FOURTH}]), ((1, 2, 2, 1), GAPS))


def compact(value):
    return json.dumps(value, separators=(',', ':'), sort_keys=True)


def gaps(ran):
    """The gaps of a report's districts."""
    status, output, errors = ran
    assert status in (0, 1) and not errors, ran
    return json.loads(output)['contiguity']


def start(words, pipes=(), environment=None):
    return subprocess.Popen([program, *words], pass_fds=pipes, stdin=subprocess.DEVNULL, stdout=subprocess.PIPE,
                            stderr=subprocess.PIPE, env={**os.environ, **(environment or {})})


def end(process):
    """Its status, its output and its errors."""
    try:
        output, errors = process.communicate(timeout=60)
    finally:
        process.kill()
    return process.returncode, output.decode(), errors.decode()


def feed(pipe, data, size):
    """Writes packets of so many bytes, as far as they are read, and closes the pipe."""
    try:
        for at in range(0, len(data), size):
            os.write(pipe, data[at:at + size])
    except BrokenPipeError:
        pass
    os.close(pipe)


def run_in_pieces(words, texts, size):
    """A read takes one packet; a packet has 4,096 bytes at most. A text that isn't taken for a minute ends the program."""
    pipes = {role: os.pipe2(os.O_DIRECT) for role in texts}
    named = [word for role, (reads, _) in pipes.items() for word in (f'--{role}', f'/dev/fd/{reads}')]
    process = start([*words, *named], [reads for reads, _ in pipes.values()])
    for reads, _ in pipes.values():
        os.close(reads)
    late = threading.Timer(60, process.kill)
    late.start()
    # in the order in which they are given
    for role, (_, writes) in pipes.items():
        feed(writes, texts[role].encode('latin-1'), size)
    late.cancel()
    return end(process)


def run(words, texts, size=None, environment=None):
    """The status, the output and the errors over these texts: as files, or in pieces of so many bytes. A path is given as it is."""
    if size:
        return run_in_pieces(words, texts, size)
    with tempfile.TemporaryDirectory() as folder:
        named = []
        for role, text in texts.items():
            path = text if isinstance(text, Path) else Path(folder, role)
            if path is not text:
                path.write_bytes(text.encode('latin-1'))
            named += [f'--{role}', str(path)]
        return end(start([*words, *named], environment=environment))


def is_refused(name, ran, fault, status=3):
    """That only this fault was told."""
    assert ran == (status, '', f'plandesk: {fault}\n'), (name, ran, fault)


def is_printed(name, ran, output, status=0):
    """That only this was printed."""
    assert ran == (status, output, ''), (name, ran, output)
