"""The kit's prover as tools and tests call it: what it is told of a crate, and what a verdict on a crate rests on."""
import hashlib, os, shutil, subprocess, sys

from crate_lines import ROOT, below

RT = shutil.which('rt')
if not RT:
    print("plandesk: there is no `rt` on the PATH, without which nothing is proved or built: "
          "see 'Check the program, or build it yourself' in README.md", file=sys.stderr)
    sys.exit(127)
KIT = os.path.dirname(os.path.dirname(os.path.realpath(RT)))
RATTLE = f'{KIT}/bin/rattle'
# the folders of a crate that a verdict reads
PARTS = 'src', 'specs', 'proofs'
# what one check may take of memory
NEEDED = 3_000_000_000
# where this machine keeps what was proved and tried
KEPT = os.path.join(os.environ.get('XDG_CACHE_HOME') or os.path.expanduser('~/.cache'), 'plandesk')
# and where tools/first_build keeps the libraries that it proved
STORE = f'{KEPT}/built'


def left_by_the_gate(library):
    """Where `rt ci` leaves a library of the repository."""
    return f'{ROOT}/crates/{library}/out/rlib/{library}.rlib'


def entry(name, key):
    """The folder of the store with what was made of a crate, by the sum of all that its proof read."""
    return f'{STORE}/{name}-{key[:40]}'


def is_library(name):
    """Whether a crate is a library; any other is a program."""
    return os.path.exists(f'{ROOT}/crates/{name}/src/lib.rt')


def rlib(library, libraries, place):
    """Where a library lies, one of the kit's too."""
    return place(library) if library in libraries else f'{KIT}/rlibs/{library}.rlib'


def words(name, libraries, jobs=1, place=left_by_the_gate):
    """What the prover is told of a crate: its libraries, and the logic."""
    top = 'src/lib.rt' if is_library(name) else 'src/main.rt'
    named = [word for library in ['std', *libraries[name]] for word in ('--extern', f'{library}={rlib(library, libraries, place)}')]
    places = [f'{KIT}/rlibs', *(os.path.dirname(place(it)) for it in below(name, libraries))]
    found = [word for folder in places for word in ('-L', f'dependency={folder}')]
    return ['--crate-name', name, top, *named, *found, '--antt-project', f'{KIT}/rattle/logic/antt-project.json',
            '--logic-built', f'{KIT}/logic_built', '--links', f'{name}=', '--jobs', str(jobs)]


def building(name, libraries, to, jobs=1, place=left_by_the_gate):
    """The command that proves a crate and makes of it a library, or a program's object."""
    last = ['--statements'] if is_library(name) else ['--backend', 'llvm', '--toolchain', f'{KIT}/toolchain']
    return [RATTLE, 'build', *words(name, libraries, jobs, place), *last, '-o', to]


def linking(made, program):
    """The command that makes a program of its object."""
    return [f'{KIT}/bin/rattle-link', '--target', 'x86_64-unknown-linux-gnu', '--toolchain', f'{KIT}/toolchain', '-o', program, made,
            f'{KIT}/c/libos_c.a', f'{KIT}/c/liblibc_c.a']


def run(command, **how):
    """Runs a command, and gives its status and what it said."""
    done = subprocess.run(command, text=True, errors='replace', stdin=subprocess.DEVNULL, stdout=subprocess.PIPE, stderr=subprocess.STDOUT, **how)
    return done.returncode, done.stdout


def lanes():
    """How many checks go side by side: one a processor, as far as memory lasts, or as many as RT_JOBS says."""
    if os.environ.get('RT_JOBS', '').isdigit():
        return max(1, int(os.environ['RT_JOBS']))
    with open('/proc/meminfo') as file:
        available, = (1024 * int(line.split()[1]) for line in file if line.startswith('MemAvailable:'))
    return max(1, min(len(os.sched_getaffinity(0)), available // NEEDED))


def read(path):
    """The bytes of a file, none where there is no such file."""
    try:
        with open(path, 'rb') as file:
            return file.read()
    except OSError:
        return b''


def sum_of_kit():
    """A sum of the kit: the texts that name it, and size and time of what proves, compiles and links."""
    found = hashlib.sha256()
    for name in 'KIT-ID', 'WHAT', 'rlibs/std.rlib/format':
        found.update(read(f'{KIT}/{name}') + b'\0')
    for name in 'bin/rattle', 'bin/rattle-link', 'toolchain/bin/clang', 'c/libos_c.a', 'c/liblibc_c.a':
        known = os.stat(f'{KIT}/{name}')
        found.update(f'{name} {known.st_size} {known.st_mtime_ns}\n'.encode())
    return found.hexdigest()


def sum_of_crate(name, libraries, kit, place=left_by_the_gate):
    """A sum of all that a verdict on a crate rests on: the kit, the crate's line of crates.txt and its texts, and the libraries below
    it as they were built, whose formats have a sum of their files."""
    found = hashlib.sha256(repr((kit, name, libraries[name])).encode())
    for part in PARTS:
        for folder, folders, files in os.walk(f'{ROOT}/crates/{name}/{part}'):
            folders.sort()
            for file in sorted(files):
                path = os.path.join(folder, file)
                found.update(repr((os.path.relpath(path, ROOT), read(path))).encode())
    for library in sorted({*below(name, libraries), *libraries[name]}):
        found.update(repr((library, read(f'{rlib(library, libraries, place)}/format'))).encode())
    return found.hexdigest()
