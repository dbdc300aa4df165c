"""For tools/audit: the plans' files that somebody sent, and the audit of each by the program, side by side."""
import fnmatch, multiprocessing, os, re, signal, subprocess
from dataclasses import dataclass

from audit import SIZES, Refused, count, read
from audit_csv import pieces_of
from audit_inputs import Made, file_of
from audit_index import Entry
from audit_more import More
from audit_page import page
from faults import meaning_of
from plan_file import bytes_of, quoted
from plan_pieces import agree, ground_of, read_plan
from plan_turn import turned

ROLES = 'geo', 'seg1', 'seg2', 'seg3', 'gal'
REFUSED = re.compile(r'plandesk: (?:(\w+): )?(.*)\Z')
LINE = re.compile(r'B[0-9] line ([0-9]+)\Z')


@dataclass(frozen=True)
class Rule:
    """Of files whose name matches the pattern: the kind and the number of districts."""
    pattern: str
    kind: str
    districts: int

    def words(self):
        return f'{self.kind}, {count(self.districts, "district")}, by the pattern {self.pattern}' if self.pattern else \
            f'{self.kind}, {count(self.districts, "district")}, as for all files'


def rule_of(pattern, kind, districts):
    """A rule by its words, which have to be a kind and a number of districts that such a plan may have."""
    if kind not in SIZES or not re.match(r'[0-9]{1,3}\Z', districts) or not 1 <= int(districts) <= SIZES[kind]:
        raise Refused(f'BadRule {quoted([kind, districts])}', 2)
    return Rule(pattern, kind, int(districts))


def chosen_rule(rules, path):
    """The first rule that is of a file."""
    name = os.path.basename(path)
    found = next((rule for rule in rules if rule.pattern is None or fnmatch.fnmatchcase(name.lower(), rule.pattern.lower())), None)
    if found is None:
        raise Refused('NoRule')
    return found


def files_in(path):
    """A file, or all files in a folder and in the folders within, but for hidden ones."""
    if not os.path.isdir(path):
        return [path]
    return sorted(os.path.join(folder, name) for folder, _, names in os.walk(path) for name in names
                  if not any(part.startswith('.') for part in os.path.join(os.path.relpath(folder, path), name).split(os.sep) if part != '.'))


def stems(paths):
    """A name for the pages of each file, of letters, digits and three signs, none twice."""
    used, found = {'index', 'plans', 'verdicts', 'districts', 'pages', ''}, []
    for path in paths:
        name = re.sub(r'[^A-Za-z0-9._-]', '_', os.path.basename(path)).lstrip('.')[:100]
        stem, number = name, 2
        while stem.lower() in used or stem.startswith('index-by-'):
            stem, number = f'plan-{number}-{name}', number + 1
        used.add(stem.lower())
        found.append(stem)
    return found


@dataclass(frozen=True)
class State:
    """What is the same for all plans: the paths of the state's files and of the companions, the program and its version, what the
    files say, and where the turned plans are put."""
    paths: dict
    companions: dict
    program: str
    version: str
    date: str
    files: list
    reading: object
    rules: tuple
    names: object
    near: tuple
    people: dict
    folder: str

    def words(self, kind):
        """The options of `plandesk check` for a plan of this kind, but for the plan."""
        words = [word for role in ROLES for word in (f'--{role}', self.paths[role])]
        for role, kinds in (('senate', ('house',)), ('congress', ('house', 'senate'))):
            if role in self.companions and kind in kinds:
                path, districts = self.companions[role]
                words += [f'--{role}', path, f'--{role}-districts', str(districts)]
        return words


@dataclass(frozen=True)
class Job:
    """A plan's file, and the name of its pages."""
    number: int
    path: str
    stem: str


@dataclass(frozen=True)
class Outcome:
    """What became of a plan: its entry in the index, and its page, its text and its report, with what they were made of."""
    entry: Entry
    page: str = None
    text: str = None
    report: str = None
    made_of: tuple = ()


class StateRefused(Refused):
    """A fault of the state's files or of a companion, with which no plan can be audited."""


def checked(state, rule, path, plan):
    """The line of the report that the program prints of a plan."""
    words = ['check', *state.words(rule.kind), '--plan', path, '--kind', rule.kind, '--districts', str(rule.districts), '--words']
    try:
        done = subprocess.run([state.program, *words], stdin=subprocess.DEVNULL, capture_output=True)
    except (OSError, ValueError):
        raise StateRefused('NoVersion', place=state.program) from None
    if done.returncode in (0, 1) and done.stdout:
        return done.stdout
    said = done.stderr.decode('utf-8', 'replace').splitlines() or [f'plandesk: status {done.returncode}']
    role, code = (REFUSED.match(said[0]) or re.match('()(.*)', said[0])).groups()
    # what the program says before its explanation names a file that is removed
    words = ' '.join(said[1:])
    words = (words.partition(' it means: ')[2] or words).strip() or None
    if role != 'plan':
        raise StateRefused(f'{role}: {code}' if role else code, done.returncode if done.returncode in (3, 5, 6) else 3, None, words)
    match = LINE.match(code)
    value = f' {quoted([plan.lines[int(match[1]) - 1]])}' if match and int(match[1]) <= len(plan.lines) else ''
    raise Refused(code + value, words=words)


def put_text(path, text):
    """Writes a turned plan for the program to read; without room for it no plan can be audited."""
    try:
        with open(path, 'w', encoding='ascii') as file:
            file.write(text)
    except OSError:
        raise StateRefused('WriteFault', 6) from None


def outcome(state, job):
    """The audit of a plan, and its page."""
    rule = chosen_rule(state.rules, job.path)
    data = bytes_of(job.path)
    plan = turned(data, state.reading(rule.districts))
    text, path = plan.text(), os.path.join(state.folder, f'{job.number}.txt')
    put_text(path, text)
    line = checked(state, rule, path, plan)
    os.remove(path)
    report, ground = read(line), ground_of(read_plan(text.encode()), state.near, state.people)
    agree(ground, report)
    notes = (*plan.told(), f'kind and districts: {rule.words()}')
    source = file_of(os.path.basename(job.path), data)
    made = Made([source, file_of(f'{job.stem}.txt', text.encode()), *state.files], state.version, state.date, None)
    links = ('All plans', './index.html'), ('The plan as it was audited', f'./{job.stem}.txt'), ('Its report', f'./{job.stem}.json')
    entry = Entry(job.path, kind=rule.kind, districts=rule.districts, page=f'{job.stem}.html', report=report,
                  pieces=pieces_of(report, ground))
    shown = page(report, job.path, line.decode().strip(), More(state.names, ground, made, links, notes))
    of = source.digest, line.decode(), state.version, notes, [(file.name, file.digest) for file in state.files]
    return Outcome(entry, shown, text, line.decode(), of)


def tried(state, job, meanings):
    """The audit of a plan, or its fault; a fault of the state's files is raised."""
    try:
        return outcome(state, job)
    except StateRefused:
        raise
    except Refused as fault:
        rule = None if fault.code == 'NoRule' else chosen_rule(state.rules, job.path)
        words = fault.words or meaning_of(fault.code, meanings)
        return Outcome(Entry(job.path, kind=rule and rule.kind, districts=rule and rule.districts, fault=fault.code, words=words))


SHARED = {}


def at_once(job):
    """In a process of its own: the audit of a plan, or the fault that ends the run, by its code and its status."""
    try:
        return tried(SHARED['state'], job, SHARED['meanings'])
    except StateRefused as fault:
        return fault.code, fault.status, fault.place, fault.words


def outcomes(state, jobs, meanings, workers):
    """What becomes of each plan, in order, so many of them at once."""
    SHARED.update(state=state, meanings=meanings)
    # what is known of the state is shared by a fork, and not sent to each process
    with multiprocessing.get_context('fork').Pool(min(workers, max(len(jobs), 1)), signal.signal, (signal.SIGINT, signal.SIG_IGN)) as pool:
        for found in pool.imap(at_once, jobs):
            if not isinstance(found, Outcome):
                raise Refused(*found)
            yield found
