"""Edits of crates/NAME/wrong-bodies: how each is read, and put into a copy of its crate."""
import os, re

# what is written by hand of a function's proof
WRITTEN = 'Answers.antt', 'Invariants.antt', 'Proof.antt'
# the search for a goal of which a person wrote why it can't be closed: a fifth of that which the prover makes by itself
SHORT = 'search rules fits 100 steps 2000000'


def text_of(path):
    with open(path) as file:
        return file.read()


def write(path, text):
    os.makedirs(os.path.dirname(path), exist_ok=True)
    with open(path, 'w') as file:
        file.write(text)


def answered(text):
    """The goals that a file of answers has answers for."""
    return set(re.findall(r'^(?:pub )?(\S+) : goal\.', text, re.M))


def without(text, goals):
    """A file of answers without those of some goals: a line with each goal's type, and what stands behind it as far as a blank line."""
    own = '|'.join(re.escape(goal) for goal in goals)
    return '\n\n'.join(block for block in re.split(r'\n\n+', text) if not re.search(rf'^(?:pub )?(?:{own}) : goal\.', block, re.M)) + '\n'


class Edit:
    """An edit of one function. What a reader found of it stands in its line `read`: the goals at which it was refused, and why. In its
    line `closed` stand goals that the search closes here, though their answer is for another value."""

    def __init__(self, path):
        self.name = os.path.basename(path)[:-len('.edit')]
        lines = [line.partition(': ') for line in text_of(path).split('\n') if line.strip()]
        self.function, = (text for word, _, text in lines if word == 'fn')
        goals, _, self.why = next((text for word, _, text in lines if word == 'read'), '').partition(': ')
        self.read = set(goals.split(', ')) if self.why else set()
        self.closed = {goal for word, _, text in lines if word == 'closed' for goal in text.split(', ')}
        self.pairs, at, old = [], None, None
        # whether the function calls itself
        self.cycle = False
        for word, _, text in lines:
            if word == 'file':
                at = text
            elif word == 'old':
                old = text
            elif word == 'new':
                self.pairs.append((at, old, text))

    def fault(self, folder):
        """Why the edit can't be applied to the crate in a folder, if it can't."""
        for at, old, _ in self.pairs:
            count = text_of(f'{folder}/{at}').count(old)
            if count != 1:
                return f'{old.strip()!r} stands {count} times in {at}'
        return None

    def apply(self, folder):
        for at, old, new in self.pairs:
            write(f'{folder}/{at}', text_of(f'{folder}/{at}').replace(old, new))

    def proof(self, function=None):
        """The folder of the function's proof, or of that of a copy."""
        return 'proofs/' + (function or self.function).replace('::', '/')

    def beside(self, folder, function):
        """The file of the function, and its text with this edit under another name; None where it can't stand beside the function."""
        at = self.pairs[0][0]
        text, last = text_of(f'{folder}/{at}'), self.function.split('::')[-1]
        start, end = span(text, last) or (0, 0)
        body = text[start:end]
        if any(file != at or old not in body for file, old, _ in self.pairs) or self.is_cited(folder):
            return None
        for _, old, new in self.pairs:
            body = body.replace(old, new)
        return at, re.sub(rf'\bfn {last}\b', f'fn {function.split("::")[-1]}', body, count=1)

    def module(self, folder):
        """The module of the function, where all of the edit is in it and a copy of the whole may stand beside it: a file that the root
        names, and that no specs and no other proofs speak of."""
        at, name = self.pairs[0][0], self.function.split('::')[0]
        others = [f'{above}/{it}' for part in ('specs', 'proofs') for above, _, names in os.walk(f'{folder}/{part}') for it in names
                  if not above.startswith(f'{folder}/proofs/{name}/')]
        if at != f'src/{name}.rt' or any(file != at for file, _, _ in self.pairs) or os.path.isdir(f'{folder}/src/{name}'):
            return None
        return None if any(speaks_of(name).search(text_of(it)) for it in others) else name

    def put_module_beside(self, crate, folder, copy):
        """Puts a copy of the module with this edit into a copy of the crate, with what is written of its proofs."""
        name = self.function.split('::')[0]
        renamed = lambda text: re.sub(rf'\bcrate::{name}\b', f'crate::{copy}', speaks_of(name).sub(rf'\1.{copy}', text))
        text = text_of(f'{crate}/src/{name}.rt')
        for _, old, new in self.pairs:
            text = text.replace(old, new)
        write(f'{folder}/src/{copy}.rt', renamed(text))
        root = f'{folder}/src/lib.rt' if os.path.exists(f'{folder}/src/lib.rt') else f'{folder}/src/main.rt'
        write(root, re.sub(rf'^((?:pub(?:\([a-z ]+\))? )?mod ){name};$', rf'\g<0>\n\g<1>{copy};', text_of(root), count=1, flags=re.M))
        for above, _, names in os.walk(f'{crate}/proofs/{name}'):
            for it in names:
                write(f'{folder}/proofs/{copy}{above[len(f"{crate}/proofs/{name}"):]}/{it}', renamed(text_of(f'{above}/{it}')))

    def shorten(self, folder, crate, function):
        """Has the goals that were read and have no answer by hand tried by a short search alone, in a copy of the crate, and those in
        its line `closed` by the search."""
        place = self.place(folder, function)
        path = f'{folder}/{place}/Answers.antt'
        text = text_of(path) if os.path.exists(path) else ''
        if self.closed:
            text = without(text, self.closed)
            write(path, text)
        goals = sorted(self.read - answered(text))
        if not goals:
            return
        names = f'use Rattle.{crate}.{place.replace("/", ".")}.Goals as goal\n'
        uses = ('' if re.search(r'^use .*\brules\b', text, re.M) else 'use Rattle.std.proofs.Common.{rules}\n') + ('' if names in text else names)
        write(path, uses + text + ''.join(f'\npub {goal} : goal.{goal}\n{goal} = {SHORT}\n' for goal in goals))

    def narrow(self, folder, function):
        """Has each goal that wasn't read left as a hole, in a copy of the crate: whether that can be, where some were read."""
        at, start = self.head(folder, function)
        if not self.read or start is None:
            return False
        text = text_of(f'{folder}/{at}')
        above, indent = text[:start].split('\n'), re.match(' *', text[start:])[0]
        first = len(above) - 1
        while re.match(rf'{indent}(///|#\[)', above[first - 1]):
            first -= 1
        above[first:] = [line for line in above[first:-1] if not line.startswith(f'{indent}#[tactic(')] + [f'{indent}#[tactic(none)]', '']
        write(f'{folder}/{at}', '\n'.join(above) + text[start:])
        path = f'{folder}/{self.place(folder, function)}/Answers.antt'
        write(path, without(text_of(path), answered(text_of(path)) - self.read))
        return True

    def head(self, folder, function):
        """The file of the function, or of its copy, in a copy of the crate, and where it begins there; None where that isn't told."""
        module, last = function.split('::')[0], function.split('::')[-1]
        at = self.pairs[0][0] if module == self.function.split('::')[0] else f'src/{module}.rt'
        text = text_of(f'{folder}/{at}')
        heads = list(re.finditer(r'^ *(?:pub(?:\([a-z ]+\))? )?(?:const )?(?:unsafe )?fn (\w+)\b', text, re.M))
        found = [it for it in heads if it[1] == last]
        if len(found) > 1:
            # (the one in which a text of the edit stands)
            around = [[it for it in heads if it.start() < text.find(new)][-1:] for _, _, new in self.pairs]
            found = [it for last_before in around for it in last_before if it in found][:1]
        return at, found[0].start() if found else None

    def place(self, folder, function):
        """The folder of what is written of the function's proof, or of its copy's: that of one which calls itself has a `+`."""
        above, _, last = self.proof(function).rpartition('/')
        return f'{above}/+{last}' if self.is_in_cycle(folder) else f'{above}/{last}'

    def find_cycle(self, proofs):
        """Notes whether the function calls itself, by the folders of the crate's proofs."""
        above, _, last = self.proof().rpartition('/')
        self.cycle = f'{above}/+{last}' in proofs

    def is_cited(self, folder):
        """Whether a file of another proof names the function's, or its proof is one of a cycle of calls."""
        own = re.compile(rf'\b{re.escape(self.proof().replace("/", "."))}\b')
        files = [f'{at}/{name}' for at, _, names in os.walk(f'{folder}/proofs') if at != f'{folder}/{self.proof()}' for name in names]
        return self.is_in_cycle(folder) or any(own.search(text_of(file)) for file in files)

    def is_in_cycle(self, folder):
        """Whether the function's proof is one of a cycle of calls."""
        *above, last = self.proof().split('/')
        return self.cycle or os.path.isdir('/'.join([folder, *above, f'+{last}']))

    def put_beside(self, folder, function, at, body):
        """Puts a copy of the function behind it, with what is written of its proof."""
        text = text_of(f'{folder}/{at}')
        _, end = span(text, self.function.split('::')[-1])
        write(f'{folder}/{at}', f'{text[:end]}\n{body}{text[end:]}')
        old, new = self.proof(), self.proof(function)
        for written in WRITTEN:
            if os.path.exists(f'{folder}/{old}/{written}'):
                own = re.compile(rf'\b{re.escape(old.replace("/", "."))}\b')
                write(f'{folder}/{new}/{written}', own.sub(new.replace('/', '.'), text_of(f'{folder}/{old}/{written}')))


def speaks_of(module):
    """Where a text names what is declared, stated or proved in a module."""
    return re.compile(rf'\b(declared|contracts|proofs)\.{module}\b')


def span(text, name):
    """Where a function stands in a file, with its attributes, by the layout of `rt fmt`: where there is one of that name, and it is no
    trait's."""
    found = list(re.finditer(rf'^( *)(?:pub(?:\([a-z ]+\))? )?(?:unsafe )?fn {name}\b', text, re.M))
    if len(found) != 1:
        return None
    indent, lines, line = found[0][1], text.split('\n'), text.count('\n', 0, found[0].start())
    if indent:
        owner = next(it for it in reversed(lines[:line]) if it.strip() and not it.startswith(indent))
        if not re.match(r'(unsafe )?impl\b', owner) or ' for ' in owner.split(' where ')[0]:
            return None
    first = last = line
    while re.match(rf'{indent}(///|#\[)', lines[first - 1]):
        first -= 1
    while lines[last] not in (indent + '}', indent + '{}') and not (last == line and lines[line].endswith('}')):
        last += 1
    return sum(len(it) + 1 for it in lines[:first]), sum(len(it) + 1 for it in lines[:last + 1])


FUNCTION = re.compile(r'( *)(?:pub(?:\([a-z ]+\))? )?(const )?(?:unsafe )?fn (\w+)')


def body_of(lines, line, indent):
    """The line behind which a function's body stands, by the layout of `rt fmt`; None where it has none, or one on the same line."""
    for at in range(line, len(lines)):
        text = lines[at]
        is_head = at == line or text.startswith((f'{indent})', f'{indent}>', f'{indent}where'))
        if text == indent + '{' or is_head and text.endswith(' {'):
            return at
        if is_head and text.endswith((';', '}')) or not is_head and text.strip() and not text.startswith(indent + ' '):
            return None
    return None


def stub(folder, kept):
    """Leaves out the bodies of a crate's functions but those of these files and names: a function is proved by its callees' contracts, and
    what these call isn't read then."""
    for at, _, names in os.walk(f'{folder}/src'):
        for name in names:
            path = f'{at}/{name}'
            write(path, stubbed(text_of(path), {last for file, last in kept if file == os.path.relpath(path, folder)}))


def stubbed(text, kept):
    lines, made, line = text.split('\n'), [], 0
    while line < len(lines):
        found = FUNCTION.match(lines[line])
        at = body_of(lines, line, found[1]) if found and not found[2] and found[3] not in kept else None
        end = next((it for it in range(at + 1, len(lines)) if lines[it] == found[1] + '}'), None) if at is not None else None
        if end is None:
            made.append(lines[line])
            line += 1
        else:
            made += [*lines[line:at + 1], f'{found[1]}    unreachable!()', lines[end]]
            line = end + 1
    return '\n'.join(made)


def edits_of(folder):
    """The edits of a crate, by name."""
    at = f'{folder}/wrong-bodies'
    return [Edit(f'{at}/{name}') for name in sorted(os.listdir(at) if os.path.isdir(at) else []) if name.endswith('.edit')]
