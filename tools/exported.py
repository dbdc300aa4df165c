"""For tools/export and tools/import: a desk as a folder of texts, and the manifest that tells what it holds."""
import json, os, re

from audit import SIZES, Refused, count
from folder import as_json, read_file, write_whole
from served import digest, is_name

FORMAT, MANIFEST = 1, 'manifest.json'
TEXTS = 'revisions'
# the faults of a folder, for the tools' help
MEANINGS = {
    'NoManifest': 'the folder is missing or has no manifest. Check the path',
    'BadManifest': 'the manifest is damaged. Take the folder as it was written, from another copy',
    'OtherFormat': 'the manifest is of another version of the tool. Use the tool that wrote it',
    'Incomplete': 'the export was stopped. Run export again',
    'NoText': 'a text is missing. Run export again, or take another copy',
    'BadHash': 'a text is not the one that was written. Remove the file and run export again, or take another copy'}
HASH = re.compile(r'[0-9a-f]{64}\Z')


def file_name(plan, number):
    """Where the text of a revision is. A name may be `.` or `..`, so it is never a file's whole name."""
    return f'{TEXTS}/{plan}-{number}.txt'


def is_text(value, plan, number):
    return isinstance(value, dict) and value.get('file') == file_name(plan, number) and type(value.get('bytes')) is int and \
        isinstance(value.get('sha256'), str) and HASH.match(value['sha256']) is not None


def is_kept(value):
    """Whether a value of JSON tells of a plan that an export holds."""
    if not isinstance(value, dict) or not isinstance(value.get('texts'), list) or not is_name(value.get('name')):
        return False
    size = value.get('districts')
    if not isinstance(value.get('kind'), str) or type(size) is not int or not 1 <= size <= SIZES.get(value['kind'], 0):
        return False
    count = value.get('revisions')
    return type(count) is int and len(value['texts']) <= count <= 65_535 and \
        all(is_text(text, value['name'], number) for number, text in enumerate(value['texts'], 1))


class Exported:
    """What a folder holds: its manifest, as it was read or as it grows."""

    def __init__(self, folder):
        self.folder, self.blocks, self.plans, self.complete = folder, None, {}, False

    def place(self, name):
        return os.path.join(self.folder, name)

    def read(self):
        """Reads the manifest; whether there is one."""
        if not os.path.lexists(self.place(MANIFEST)):
            return False
        try:
            value = json.loads(read_file(self.place(MANIFEST)).decode())
            form, blocks, plans, complete = value['format'], value['blocks'], value['plans'], value['complete']
        except (ValueError, KeyError, TypeError, AttributeError, RecursionError):
            raise Refused('BadManifest') from None
        if type(form) is int and form != FORMAT:
            raise Refused('OtherFormat')
        named = isinstance(plans, list) and all(map(is_kept, plans))
        if form != FORMAT or not isinstance(blocks, str) or not HASH.match(blocks) or not named or type(complete) is not bool or \
                len({plan['name'] for plan in plans}) < len(plans):
            raise Refused('BadManifest')
        self.blocks, self.plans, self.complete = blocks, {plan['name']: plan for plan in plans}, complete
        return True

    def said(self):
        return f'{count(len(self.plans), "plan")}, {count(sum(plan["revisions"] for plan in self.plans.values()), "revision")}'

    def save(self):
        plans = [self.plans[name] for name in sorted(self.plans)]
        value = {'format': FORMAT, 'blocks': self.blocks, 'plans': plans, 'complete': self.complete}
        write_whole(self.place(MANIFEST), as_json(value))

    def put(self, plan, number, text):
        """Writes the text of a plan's next revision, or one anew that was lost."""
        name = file_name(plan['name'], number)
        entry = {'file': name, 'bytes': len(text), 'sha256': digest(text)}
        if number <= len(plan['texts']) and plan['texts'][number - 1] != entry:
            raise Refused(f'OtherPlan {plan["name"]}')
        if not self.stands(plan, number, text):
            write_whole(self.place(name), text)
        plan['texts'][number - 1:number] = [entry]

    def stands(self, plan, number, text=None):
        """Whether there is a file of a revision. One that has another text, or another length where no text is given, is refused:
        it isn't what was written here, and it stays."""
        path = self.place(file_name(plan['name'], number))
        if not os.path.lexists(path):
            return False
        if text is None:
            same = os.path.isfile(path) and os.path.getsize(path) == plan['texts'][number - 1]['bytes']
        else:
            same = read_file(path) == text
        if not same:
            raise Refused(f'BadHash {plan["name"]}:{number}')
        return True

    def text(self, plan, number):
        """The text of a revision, which has to be the one that was written."""
        entry = plan['texts'][number - 1]
        data = read_file(self.place(entry['file']))
        if data is None:
            raise Refused(f'NoText {plan["name"]}:{number}')
        if len(data) != entry['bytes'] or digest(data) != entry['sha256']:
            raise Refused(f'BadHash {plan["name"]}:{number}')
        return data


def progress(tool, shown, done, whole):
    """A line at a terminal."""
    if shown.isatty():
        print(f'{tool}: {done} of {whole} revisions', file=shown)
