"""For the tools: how a fault is told, and what stands behind the options in a tool's help."""
import sys, textwrap


def meaning_of(code, meanings):
    """What the first word of a fault's line that has a meaning means."""
    return next((meanings[word] for word in code.split() if word in meanings), None)


def tell(tool, fault, meanings, words=False):
    """Prints a fault on standard error, and returns the status. At a terminal, or if words are asked for, a second line says what
    to do."""
    print(': '.join([tool, *([fault.place] if fault.place else []), fault.code]), file=sys.stderr)
    meaning = fault.words or meaning_of(fault.code, meanings)
    if meaning and (words or sys.stderr.isatty()):
        print(f'{meaning.rstrip(".")}.', file=sys.stderr)
    return fault.status


def add_words(parser):
    """The option by which a fault is explained without a terminal."""
    parser.add_argument('--words', action='store_true', help='explains a fault in a second line, as at a terminal')


def help_of(tool, examples, statuses, meanings, place=''):
    """The examples, the statuses and the codes."""
    said = ['examples:', *(f'  {example}' for example in examples), '', 'statuses:',
            *(f'  {status}  {words}' for status, words in statuses.items()), '',
            f'faults, printed on standard error as `{tool}: {place}CODE`:']
    for code, meaning in meanings.items():
        said += textwrap.wrap(f'{code}: {meaning}.', 96, initial_indent='  ', subsequent_indent='      ')
    return '\n'.join([*said, '', 'docs/TOOLS.md has more.'])
