"""Libraries that are loaded before the C library; and for tests/faults, tests/sweeps, tests/seats, tests/kept and
tests/tables runs of the program of whose calls on a store's file one fails, is held or ends the process, by faults.rs.
"""
import os, subprocess, tempfile

from made_state import SECTOR, here, program

STOPPED = '', '', 99
NOTE = 9


def shim_in(folder, name='faults'):
    """The library that is made of this text."""
    shim = os.path.join(folder, f'{name}.so')
    subprocess.run(['rustc', '-O', '--crate-type', 'cdylib', '-o', shim, os.path.join(here, f'{name}.rs')], check=True)
    return shim


def by(shim, **words):
    """The environment of a run by the shim, to which these words are given."""
    return {**os.environ, 'LD_PRELOAD': shim, **{name: str(word) for name, word in words.items()}}


def run(words, **more):
    done = subprocess.run([program, *words], stdin=subprocess.DEVNULL, capture_output=True, text=True, timeout=100, **more)
    return done.stdout, done.stderr, done.returncode


def failing(shim, words, call):
    """How a run ends whose call with this number fails, and whether it came to that call."""
    ended, told = told_of(shim, words, call)
    return ended, told == b'f'


def told_of(shim, words, call):
    """How a run ends whose call with this number fails, and what is told of that call: f, m where it reads several sectors, or nothing."""
    read, write = os.pipe()
    ended = run(words, env=by(shim, FAULT=call, TELLS=write), pass_fds=(write,))
    os.close(write)
    with open(read, 'rb') as told:
        return ended, told.read()


def notes(file):
    """The calls that were told to a file: the letter and the place of each."""
    file.seek(0)
    data = file.read()
    return [(chr(data[at]), int.from_bytes(data[at + 1:at + NOTE], 'big')) for at in range(0, len(data), NOTE)]


def noted(shim, words, **more):
    """How a run ends, and its calls."""
    with tempfile.TemporaryFile() as file:
        ended = run(words, env=by(shim, CALLS=file.fileno(), **more), pass_fds=(file.fileno(),))
        return ended, notes(file)


def unsynced(calls):
    """The places of the sectors that were not on the disk as the process ended at the last of these calls: those that were written
    since the last sync, and that which was to be written."""
    synced = max((number for number, (letter, _) in enumerate(calls[:-1]) if letter == 's'), default=-1)
    return {at for letter, at in calls[synced + 1:] if letter == 'w'}


def stopped(shim, words, store, call, fill):
    """How a run ends that a stop ends at the call with this number, if it comes so far. Each sector that was not on the disk then
    is filled with the byte, or left as it is."""
    ended, calls = noted(shim, words, STOP=call)
    if ended == STOPPED and fill is not None:
        with open(store, 'r+b') as file:
            for at in unsynced(calls):
                file.seek(at)
                file.write(bytes([fill]) * SECTOR)
    return ended
