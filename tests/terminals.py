"""For the tests that have a program tell something at a terminal.

Before it: nothing.
"""
import contextlib, os, pty, subprocess

END = b'\0'


class Terminal:
    """A terminal whose two ends are open until it is left: where the end that a program wrote to is closed by everybody, what it wrote
    last can be lost to a reader who comes later."""

    def __init__(self):
        self.ours, self.errors = pty.openpty()

    def told(self):
        """What was told so far."""
        os.write(self.errors, END)
        told = b''
        while not told.endswith(END):
            told += os.read(self.ours, 4_096)
        return told[:-len(END)].decode().replace('\r\n', '\n')

    def close(self):
        os.close(self.ours)
        os.close(self.errors)


@contextlib.contextmanager
def terminal():
    made = Terminal()
    try:
        yield made
    finally:
        made.close()


def at_terminal(words, stdout=subprocess.PIPE, **more):
    """What a run prints, what its standard error is told where that is a terminal, and its status."""
    with terminal() as shown:
        done = subprocess.run(words, stdin=subprocess.DEVNULL, stdout=stdout, stderr=shown.errors, text=True, timeout=120, **more)
        return done.stdout, shown.told(), done.returncode
