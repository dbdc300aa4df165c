"""For tests/stores, tests/sweeps, tests/sweeps_beside, tests/seats, tests/wire, tests/pieces, tests/kept, tests/tables and tests/filled: stores in
files, which a state was loaded into, served on 127.0.0.1, and what they are asked.

tried.py finds the program.
"""
import contextlib, http.client, os, socket, subprocess, tempfile, time

from made_state import FILES, SECTOR, ends, formatted, here, loading, program
from ports import free_port

EXAMPLE = dict(zip(FILES, (os.path.join(here, '../example', name)
                           for name in ('geo.pl', 'seg1.pl', 'seg2.pl', 'seg3.pl', 'neighbours.gal'))))
JOURNAL = 256
# behind the header, the gate, the journal's list and its copies
FIRST_PAGE = 2 + 1 + JOURNAL
# what is told of a device that failed, and of rows that no desk leaves, and the status
DEVICE_FAULT = 4, b'plandesk: store: DeviceFault\n'
NO_STORE = 4, b'plandesk: store: NotAStore\n'


def in_use(store):
    """What every command says of a store that another program has open, also in a pipe."""
    return (f'plandesk: store: DeviceFault\n  In {store} it means: Another program has the store open, such as a `plandesk serve`; or the file '
            'is also the log. What to do: Stop that program first; `fuser FILE` shows its process ID.\n')


@contextlib.contextmanager
def folder_in_memory():
    """A folder for stores; in memory, where there is such a place, since a sync of a file on a disk takes long."""
    memory = '/dev/shm' if os.access('/dev/shm', os.W_OK) else None
    with tempfile.TemporaryDirectory(dir=memory) as folder:
        yield lambda name: os.path.join(folder, name)


def loaded(store, sectors, given=EXAMPLE, told='loaded 4 blocks, 2 counties, 2000 people\n'):
    """A store of so many sectors with the state of these files, which has no plan."""
    ends('a load', loading(formatted(store, sectors, JOURNAL), given), told, '', 0)
    return store


def named(number):
    """A plan's name of 64 digits, the first of which differ as the number does."""
    return f'{number:04}'[::-1].ljust(64, '0')


def free_pages(store):
    """Page 0 names the root, the first free page and how many are free; each free page names the next one, and the last names 0."""
    with open(store, 'rb') as file:
        def number(page, at):
            return int.from_bytes(os.pread(file.fileno(), 4, (FIRST_PAGE + page) * SECTOR + at), 'big')
        page, count, pages = number(0, 4), number(0, 8), os.path.getsize(store) // SECTOR - FIRST_PAGE
        for _ in range(count):
            assert 0 < page < pages, (store, page)
            page = number(page, 0)
    assert count == 0 or page == 0, (store, page)
    return count


def serving(store, port, connections=1, workers=1, sweeps=False, **seconds):
    """The words that serve a store, which is left to other sweeps unless it is asked for. What is None isn't said."""
    given = {'workers': workers, 'connections': connections, **seconds}
    return ['serve', store, '--port', str(port), *([] if sweeps else ['--no-sweep']),
            *(word for name, value in given.items() if value is not None for word in (f'--{name}', str(value)))]


def start(store, connections=1, workers=1, keep=None, idle=None, request=None, sweeps=False, **more):
    """Serves a store to so many connections: the process, its port, and whether it listens."""
    port = free_port()
    words = serving(store, port, connections, workers, sweeps, keep=keep, idle=idle, request=request)
    process = subprocess.Popen([program, *words], stdin=subprocess.DEVNULL,
                               stdout=subprocess.PIPE, stderr=subprocess.PIPE, **more)
    line = process.stdout.readline()
    if line not in (b'', b'listening on 127.0.0.1:%d\n' % port):
        process.kill()
        assert False, line
    return process, port, line != b''


def ends_so(process, status=0, told=b''):
    """The process ends so, within a minute."""
    try:
        output, errors = process.communicate(timeout=60)
    finally:
        process.kill()
    assert (process.returncode, output, errors) == (status, b'', told), (process.returncode, output, errors)


@contextlib.contextmanager
def served(store, connections=1, workers=1, **more):
    """The port at which a store is served to so many connections, which all come."""
    process, port, listens = start(store, connections, workers, **more)
    try:
        assert listens, process.stderr.read()
        yield port
        ends_so(process)
    finally:
        process.kill()


def connect(port):
    client = socket.create_connection(('127.0.0.1', port), timeout=60)
    client.setsockopt(socket.IPPROTO_TCP, socket.TCP_NODELAY, 1)
    return client


def exchange(port, *pieces):
    """What a connection is answered to a stream that comes in these pieces, until it is closed. The pause between two pieces is
    long enough for the first to be read."""
    with connect(port) as client:
        for number, piece in enumerate(pieces):
            if number:
                time.sleep(0.001)
            client.sendall(piece.encode())
        client.shutdown(socket.SHUT_WR)
        return b''.join(iter(lambda: client.recv(65_536), b'')).decode()


def asked(store, *streams):
    """What a store is answered that is served to a connection for each of these streams."""
    with served(store, len(streams)) as port:
        return [exchange(port, stream) for stream in streams]


def replies(port, *requests):
    """The replies to requests that come one after the other on a connection, each a method, a path and a body."""
    connection, found = http.client.HTTPConnection('127.0.0.1', port, timeout=60), []
    for method, path, body in requests:
        connection.request(method, path, body.encode())
        reply = connection.getresponse()
        found.append((reply.status, reply.read().decode()))
    connection.close()
    return found


def does(store, *turns):
    """The store, served, replies to each request so: method, path, body, status and text."""
    with served(store) as port:
        found = replies(port, *(turn[:3] for turn in turns))
    wanted = [turn[3:] for turn in turns]
    assert found == wanted, (store, found, wanted)


def is_sealed(store, blocks):
    """Whether the store, served, lists these blocks, or replies that it has no geography."""
    with served(store) as port:
        reply, = replies(port, ('GET', '/blocks', ''))
    assert reply in ((200, blocks), (409, '{"error":"NotSealed"}')), reply
    return reply[0] == 200


class Client:
    """A connection that stays, and is asked again and again."""

    def __init__(self, port):
        self.socket = connect(port)
        self.answers = self.socket.makefile('rb')

    def ask(self, request):
        return self.ask_all([request])[0]

    def ask_all(self, requests):
        """The answer to each request, which are sent fifty at once."""
        found = []
        for at in range(0, len(requests), 50):
            some = requests[at:at + 50]
            self.socket.sendall(''.join(some).encode())
            found += [self.answer() for _ in some]
        return found

    def answer(self):
        head = b''.join(iter(self.answers.readline, b'\r\n')).decode() + '\r\n'
        length = int(head.split('Content-Length: ')[1].split('\r\n')[0])
        return head + self.answers.read(length).decode()

    def close(self):
        self.answers.close()
        self.socket.close()
