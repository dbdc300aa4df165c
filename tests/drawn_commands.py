"""For tests/tables: commands that are drawn with a fixed seed, and given to a served store and to a plain desk."""
import collections, copy, json, random

from answers import ask, refused
from made_state import ends
from plain_desk import body_of, client_of, creates, forks, is_kept, is_shown, opens_so, retires, revises
from store_rows import Store

NAMES = 'a', 'b', 'c-1', 'D_2.x', 'y' * 64
SIZES = ('congress', 2), ('congress', 99), ('senate', 50), ('house', 999)
# what is asked for by no command, and why
WRONG = [(ask('PUT /plans/a%20b?kind=house&districts=2'), refused('BadName')),
         *((ask(f'PUT /plans/n?{query}'), refused('BadQuery')) for query in (
             'kind=town&districts=2', 'kind=congress&districts=100', 'kind=house', 'kind=senate&districts=0')),
         *((ask(f'POST /plans/a/revisions{query}', body='x'), refused('BadQuery')) for query in ('', '?after=x')),
         *((ask(f'POST /plans/a{query}'), refused('BadQuery')) for query in ('', '?from=a', '?from=a:x', '?from=a:1&from=a:1'))]


def drawn_code(choose):
    """How a district may be written."""
    return lambda district: str(district).zfill(choose.randint(1, 3)) if district else choose.choice(['', 'ZZ', 'ZZZ'])


def drawn_fault(choose, block):
    """A body with a fault: its code, its line and the body."""
    return choose.choice([
        ('B1', 1, f'BLOCK|DISTRICT\n{block}|1\n'), ('B2', 2, body_of({}) + f'{block}\n'),
        ('B2', 2, body_of({}) + f'{block}|1x\n'), ('B3', 2, body_of({block[:11] + '9999': 1})),
        ('B4', 3, body_of({block: 1}) + f'{block}|1\n'), ('B5', 2, body_of({}) + f'{block}|0\n')])


def drawn_blocks(choose, model):
    """All blocks, those of some counties, or some of them, in any order."""
    blocks = list(model.places)
    counties = choose.sample(sorted({block[:5] for block in blocks}), choose.randint(0, 2))
    some = choose.choices([blocks, [block for block in blocks if block[:5] in counties],
                           choose.sample(blocks, choose.randint(1, len(blocks) - 1))], [5, 3, 2])[0]
    return choose.sample(some, len(some))


def drawn_revision(choose, model):
    """A revision, whole or by counties; at times with a fault in its body, or behind another than the last one."""
    name, page = choose.choice([*model.plans] * 4 + [*NAMES]), choose.choice(['revisions', 'counties'])
    plan = model.plans.get(name)
    after = len(plan.revisions) if plan else 0
    after = choose.choice([after] * 9 + [after + 1])
    most = min(plan.districts if plan else 1, choose.choice([2, 999]))
    listed = {block: choose.randint(0, most) for block in drawn_blocks(choose, model)}
    if choose.random() < 0.15:
        *fault, body = drawn_fault(choose, choose.choice(list(model.places)))
        return revises(name, after, listed, page, body, fault)
    return revises(name, after, listed, page, body_of(listed, drawn_code(choose)))


def drawn_fork(choose, model):
    """A fork of any name, mostly of a revision that is there, at times of one before the first or behind the last."""
    source = choose.choice([*model.plans] * 4 + [*NAMES])
    most = len(model.plans[source].revisions) if source in model.plans else 0
    return forks(choose.choice(NAMES), source, choose.choice([*range(1, most + 1)] * 5 + [0, most + 1]))


def drawn(choose, model):
    kind = choose.choices(['create', 'fork', 'retire', 'revise', 'none'], [4, 4, 2, 12, 1])[0]
    if kind == 'create':
        return creates(choose.choice(NAMES), *choose.choice(SIZES))
    if kind == 'fork':
        return drawn_fork(choose, model)
    if kind == 'retire':
        return retires(choose.choice(NAMES))
    if kind == 'revise':
        return drawn_revision(choose, model)
    request, wanted = choose.choice(WRONG)
    return request, lambda model: (wanted, 0)


def takes(client, store, model, command):
    """The command is answered as the model answers it; where too few pages are free for its rows, it is Full, and nothing
    changes. The model behind it, and what became of it."""
    request, step = command
    free, after = len(Store(store).free), copy.deepcopy(model)
    wanted, rows = step(after)
    full = free < 13 * rows
    seen = client.ask(request)
    assert seen == (refused('Full') if full else wanted), (request, seen, wanted, free, rows)
    model = model if full else after
    is_kept(store, model)
    return model, json.loads(seen.split('\r\n\r\n')[1]).get('error', 'done')


def draws(store, model, seed, count):
    """So many commands to a store, which is opened again every few commands, and swept at times: what became of how many."""
    choose, seen, swept = random.Random(seed), collections.Counter(), 0
    while sum(seen.values()) < count:
        with client_of(store) as client:
            for _ in range(choose.randint(1, 20)):
                model, became = takes(client, store, model, drawn(choose, model))
                seen[became] += 1
            is_shown(client, model)
        if choose.random() < 0.3:
            rows = model.swept()
            ends('a sweep', ['sweep', store], f'swept {rows} rows\n', '', 0)
            swept += rows
        opens_so(store, model)
    assert swept > 0, seen
    return seen
