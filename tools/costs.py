"""What each crate costs to prove, as bench/costs.tsv has it: tests/gate_cost writes it, tools/first_build reckons its estimate by it."""
import os, re

from crate_lines import ROOT, stands_on

PATH = f'{ROOT}/bench/costs.tsv'
HEAD = 'Crate', 'Functions', 'Proof, s', 'Tests, s', 'Wrong bodies', 'Their s', 'Sum, s', 'Peak, GB'


def costs():
    """The lines of the table, each as its cells by their heads; none where there is no table."""
    if not os.path.exists(PATH):
        return []
    with open(PATH) as file:
        head, *lines = [line.rstrip('\n').split('\t') for line in file]
    return [dict(zip(head, cells)) for cells in lines]


def write(rows):
    """Puts these lines of cells into the table, the dearest crate first; crates that it has besides stay, as long as crates.txt has them."""
    known = {line['Crate']: tuple(line[name] for name in HEAD) for line in costs() if line['Crate'] in stands_on()}
    known.update({cells[0]: cells for cells in rows})
    with open(PATH, 'w') as file:
        file.writelines('\t'.join(map(str, cells)) + '\n' for cells in [HEAD, *sorted(known.values(), key=lambda cells: -int(cells[6]))])


def numbers(column):
    return {line['Crate']: int(line[column]) for line in costs() if line[column].isdigit()}


def proof_seconds():
    """The processor seconds of each crate's proof."""
    return numbers('Proof, s')


def functions_told():
    return numbers('Functions')


def functions_in(text):
    """How many functions each crate has, by what `rt ci` said."""
    found, crate = {}, None
    for line in text.splitlines():
        if line.startswith('== '):
            crate = line[3:] if ':' not in line else None
        said = re.match(r'logic=proved .*?functions=(\d+)', line)
        if said and crate:
            found[crate] = int(said[1])
    return found
