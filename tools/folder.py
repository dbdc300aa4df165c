"""For tools/desk, tools/audit, tools/export and tools/release: files that are written whole or not at all, and a folder that knows what each of
its pages was made of."""
import glob, json, os

from audit import Refused
from served import digest

MANIFEST = 'pages.json'


def read_file(path):
    """The bytes of a file, or none where it can't be read."""
    try:
        with open(path, 'rb') as file:
            return file.read()
    except (OSError, ValueError):
        return None


def make_folder(path):
    try:
        os.makedirs(path or '.', exist_ok=True)
    except (OSError, ValueError):
        raise Refused('WriteFault', 6) from None


def write_whole(path, data, synced=True):
    """Writes a file next to its place and then moves it there, so that a stop leaves the old one or the new one. If it is not synced,
    a crash of the machine can leave an empty one."""
    part = f'{path}.part'
    make_folder(os.path.dirname(path))
    try:
        with open(part, 'wb') as file:
            file.write(data)
            file.flush()
            if synced:
                os.fsync(file.fileno())
        os.replace(part, path)
    except (OSError, ValueError):
        raise Refused('WriteFault', 6) from None


def as_json(value):
    return (json.dumps(value, indent=1, sort_keys=True) + '\n').encode()


def maker(tool):
    """What makes the pages of a tool: its bytes and those of its parts."""
    here = os.path.dirname(os.path.abspath(__file__))
    return digest(b''.join(read_file(path) or b'' for path in sorted([*glob.glob(f'{here}/*.py'), f'{here}/{tool}'])))


class Pages:
    """A folder of pages. Its manifest has for each file what it was made of and the file's own hash; a page that would be made of
    the same again stays as it is, and one of an earlier run that isn't shown any more is taken away. A file that is there under a
    page's name, and that the manifest doesn't name, is refused."""

    def __init__(self, path, tool):
        self.path, self.maker = path, maker(tool)
        self.known, self.now, self.made, self.saved = self.read(), {}, 0, 0

    def read(self):
        try:
            known = json.loads(read_file(self.place(MANIFEST)) or b'{}')['files']
            return {name: entry for name, entry in known.items() if os.path.basename(name) == name and isinstance(entry, dict)}
        except (ValueError, KeyError, TypeError, AttributeError, RecursionError):
            return {}

    def place(self, name):
        return os.path.join(self.path, name)

    def stands(self, name):
        """Whether the file is as an earlier run wrote it."""
        data = read_file(self.place(name))
        return data is not None and digest(data) == self.known.get(name, {}).get('sha256')

    def put(self, name, of, make):
        """Writes what `make` gives, unless it was made of the same."""
        of = digest(as_json([self.maker, of]))
        if self.known.get(name, {}).get('of') == of and self.stands(name):
            self.now[name] = self.known[name]
            return
        data = make()
        data = data.encode() if isinstance(data, str) else data
        # what no earlier run wrote is somebody else's, unless it is the same
        if name not in self.known and os.path.lexists(self.place(name)) and read_file(self.place(name)) != data:
            raise Refused(f'OtherFile {name}')
        # after a crash the next run finds by the hash what isn't as it was written
        write_whole(self.place(name), data, synced=False)
        self.now[name] = {'of': of, 'sha256': digest(data)}
        self.made += 1

    def save(self, files):
        write_whole(self.place(MANIFEST), as_json({'format': 1, 'files': files}))
        self.saved = self.made

    def note(self):
        """Keeps what was made so far, so that a run that is stopped here needn't make it again."""
        if self.made > self.saved:
            self.save({**self.known, **self.now})

    def finish(self):
        """Takes away what is not shown any more and is as it was written, and keeps what is known now."""
        for name in sorted(self.known.keys() - self.now.keys()):
            if self.stands(name):
                try:
                    os.remove(self.place(name))
                except OSError:
                    raise Refused('WriteFault', 6) from None
        self.save(self.now)
