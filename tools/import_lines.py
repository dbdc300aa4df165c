"""The imports of a file of definitions or proofs, read as the prover reads them."""
import re

LINE = re.compile(r'((?:unfoldable )?(?:pub )?)use (\w+)\.(.*\{.*\})')


def parts(text):
    """The parts of a list that commas divide, but for those in braces."""
    found, depth = [''], 0
    for letter in text:
        depth += {'{': 1, '}': -1}.get(letter, 0)
        if letter == ',' and not depth:
            found.append('')
        else:
            found[-1] += letter
    return [part.strip() for part in found if part.strip()]


def leaves(path):
    """Each module and name that a path brings, whose braces may stand in braces."""
    before, brace, inner = path.partition('{')
    if not brace:
        word, space, other = path.partition(' ')
        module, _, name = word.rpartition('.')
        return [(module, name + space + other)]
    return [leaf for part in parts(inner[:inner.rindex('}')]) for leaf in leaves(before + part)]


def here(name):
    """The name that an import gives in its file."""
    return name.rpartition(' as ')[2]


def brought(text):
    """The names that a file brings in for itself from crates, each with its module, the crate's name first."""
    found = {}
    for row in text.split('\n'):
        match = LINE.fullmatch(row)
        if match and not match[1] and match[2] == 'Rattle':
            found.update((here(name), module) for module, name in leaves(match[3]))
    return found


def is_named(name, text):
    """Whether a text names what an import brings; of an operator each of its parts."""
    if '◌' in name:
        return all(part in text for part in name.split('◌'))
    if name == '[]':
        return bool(re.search(r'\[ *\]', text))
    return bool(re.search(rf'(?<![^\s(){{}}\[\],;.λ:⟨⟦]){re.escape(name)}(?![^\s(){{}}\[\],;.:⟩⟧])', text))
