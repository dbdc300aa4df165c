"""For the scripts that serve a store: ports that no other script takes at the same time."""
import collections, fcntl, os, random, socket, tempfile

# a file for each port, which the script that took it locks: the last so many of a script, by descriptors behind those that it names itself
FOLDER = os.path.join(tempfile.gettempdir(), f'plandesk-ports-{os.getuid()}')
KEPT, BEHIND = 64, 200
taken = collections.deque()


def free_port():
    """A free port below those that Linux gives to clients, so that none of these can take it before it is listened at."""
    os.makedirs(FOLDER, exist_ok=True)
    while True:
        port = random.randrange(10_000, 32_768)
        with open(os.path.join(FOLDER, str(port)), 'w') as file, socket.socket() as free:
            free.setsockopt(socket.SOL_SOCKET, socket.SO_REUSEADDR, 1)
            try:
                fcntl.flock(file, fcntl.LOCK_EX | fcntl.LOCK_NB)
                free.bind(('127.0.0.1', port))
            except OSError:
                continue
            # (a lock lasts until its last descriptor is closed)
            taken.append(fcntl.fcntl(file, fcntl.F_DUPFD_CLOEXEC, BEHIND))
        if len(taken) > KEPT:
            os.close(taken.popleft())
        return port
