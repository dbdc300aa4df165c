"""For tests/units: commands under the system calls that a unit of systemd leaves them, by libseccomp, as systemd itself does it. Any
other call ends the process by SIGSYS, where the unit lets it fail.
"""
import json, subprocess, sys

# (a program of its own, since a filter stays for good)
UNDER = r'''
import ctypes, errno, json, os, socket, sys
KILL, ALLOW, NE, MASKED = 0x80000000, 0x7FFF0000, 1, 7
class Compare(ctypes.Structure):
    _fields_ = [('arg', ctypes.c_uint), ('op', ctypes.c_int), ('a', ctypes.c_uint64), ('b', ctypes.c_uint64)]
library = ctypes.CDLL('libseccomp.so.2')
library.seccomp_init.restype = ctypes.c_void_p
allowed, families = json.loads(sys.argv[1])
def number(name):
    return library.seccomp_syscall_resolve_name(name.encode())
def load(default, rules):
    filter = ctypes.c_void_p(library.seccomp_init(ctypes.c_uint32(default)))
    for action, name, *compares in rules:
        if number(name) >= 0:
            given = (Compare * max(len(compares), 1))(*(Compare(*each) for each in compares))
            code = library.seccomp_rule_add_array(filter, ctypes.c_uint32(action), number(name), len(compares), given)
            assert code == 0, (name, code)
    assert library.seccomp_load(filter) == 0
if allowed is not None:
    # memory that is written isn't run
    load(ALLOW, [(KILL, 'mmap', (2, MASKED, 6, 6)), (KILL, 'mprotect', (2, MASKED, 4, 4)), (KILL, 'pkey_mprotect', (2, MASKED, 4, 4))])
    load(ALLOW, [(KILL, 'socket', *((0, NE, int(getattr(socket, family)), 0) for family in families))])
    load(KILL, [(ALLOW, name) for name in allowed])
os.execvp(sys.argv[2], sys.argv[2:])
'''


def calls_of_set(name):
    """The system calls of one of systemd's sets."""
    said = subprocess.run(['systemd-analyze', 'syscall-filter', name], check=True, capture_output=True, text=True, timeout=60).stdout
    found = set()
    for word in (line.strip() for line in said.splitlines()[1:]):
        if word and not word.startswith('#'):
            found |= calls_of_set(word) if word.startswith('@') else {word}
    return found


def calls_of(lines):
    """What the lines SystemCallFilter of a unit leave: the first allows, and those with ~ take away."""
    found = calls_of_set('@default')
    for line in lines:
        sets = [calls_of_set(word) if word.startswith('@') else {word} for word in line.lstrip('~').split()]
        found = found.difference(*sets) if line.startswith('~') else found.union(*sets)
    return sorted(found)


def confined(allowed, families, *command):
    """The words that run a command so; none if it can't be done here."""
    words = [sys.executable, '-c', UNDER, json.dumps([allowed, families]), *command]
    return words if allowed is not None or subprocess.run(words, capture_output=True, timeout=60).returncode == 0 else []
