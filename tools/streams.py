"""For the tools: standard streams that are closed, or that can't be written.

Python sets a stream that was closed to None, so that reading it ends in a traceback. argparse ignores a help text that it can't
write. After this import a read of closed input and a write to closed output fail with OSError, output is written when the tool ends,
with status 6 if that fails, and lines for standard error that nobody can read are dropped.
"""
import atexit, io, os, sys

# a text of up to this size is written when the tool ends
KEPT = 1 << 20
# the use that fails is the one that a tool has for the descriptor, except for standard error
CLOSED = ('stdin', os.O_WRONLY), ('stdout', os.O_RDONLY), ('stderr', os.O_WRONLY)


class Dropping(io.FileIO):
    """A file on which a write that fails is dropped."""

    def write(self, data):
        try:
            return super().write(data)
        except OSError:
            return len(data)


def fill():
    """Opens the descriptor of each closed stream, so that no other file gets its number."""
    for number, (name, flags) in enumerate(CLOSED):
        if getattr(sys, name) is None:
            opened = os.open(os.devnull, flags)
            if opened != number:
                os.dup2(opened, number)
                os.close(opened)
    if sys.stdin is None:
        sys.stdin = open(0, closefd=False)
    sys.stdout = open(1, 'w', KEPT, errors='replace', closefd=False)
    error = io.BufferedWriter(Dropping(2, 'w', closefd=False))
    sys.stderr = io.TextIOWrapper(error, errors='backslashreplace', line_buffering=True)


def finish():
    """Ends with status 6 if what was printed can't be written."""
    try:
        sys.stdout.flush()
    except OSError:
        print(f'{os.path.basename(sys.argv[0])}: WriteFault', file=sys.stderr)
        os._exit(6)


fill()
atexit.register(finish)
