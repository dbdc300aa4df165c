"""For tests/tables: a plain desk of lists, what it answers, and the rows that its store has by docs/dev/STORE-FORMAT.md; commands to it;
and comparisons of a store, and of what a served one answers, with it.
"""
import contextlib, copy

from answers import BLOCKS, LIST, answer, ask, refused, text
from serving import Client, served
from store_rows import (VERSION, Block, Counters, chunk_rows, counters_row, desk_in, holding_row, load_rows, part_rows, plan_row,
                        retired_row, seal_row, tally_row, version_row)

SAMPLE = ([Block(int(block), city, people) for block, city, people in zip(BLOCKS, (100, 100, 100, None), (505, 505, 495, 495))],
          [(0, 1), (0, 2), (1, 3), (2, 3)])


# ---- the desk that is wanted
class Plan:
    """A plan of the model."""

    def __init__(self, number, kind, districts):
        self.number, self.kind, self.districts = number, kind, districts
        self.revisions, self.chunks = [], []


class Model:
    """A desk of lists, the rows of its store, and what each command is answered. `holders` are the numbers of the plans that hold
    each chunk, also of those that were taken away and not swept."""

    def __init__(self, ground=SAMPLE, load=0):
        self.blocks, self.pairs = ground
        self.places = {f'{block.id:015}': place for place, block in enumerate(self.blocks)}
        self.plans, self.next = {}, Counters(0, 0, load + 1)
        # the names of plans that went, and these plans, until a sweep
        self.gone, self.unswept, self.holders = set(), [], {}
        self.rows = dict([version_row(), *load_rows(load, *ground), seal_row(load, len(self.blocks), len(self.pairs))])
        self.put([])

    def counties(self, districts):
        """The districts of each county, which the number of each block tells."""
        cut = {}
        for block, district in zip(self.blocks, districts):
            cut.setdefault(block.id // 10 ** 10, []).append(district)
        return list(cut.values())

    def put(self, rows, **next_):
        """Puts the rows, and the numbers that come next."""
        self.next = self.next._replace(**next_)
        self.rows.update([*rows, counters_row(*self.next)])

    def plan_row(self, name):
        plan = self.plans[name]
        return plan_row(name, plan.number, plan.kind, plan.districts, len(plan.revisions))

    def create(self, name, kind, districts):
        if name in self.plans:
            return refused('PlanExists'), 0
        self.plans[name] = Plan(self.next.plan, kind, districts)
        self.put([self.plan_row(name)], plan=self.next.plan + 1)
        return answer(201, {'plan': name, 'revisions': 0}), 2

    def retire(self, name):
        if name not in self.plans:
            return refused('NoPlan'), 0
        key, _ = self.plan_row(name)
        del self.rows[key]
        plan = self.plans.pop(name)
        self.gone.add(name)
        self.unswept.append(plan)
        self.rows.update([retired_row(plan.number)])
        return answer(200, {'plan': name, 'retired': True}), 2

    def hold(self, plan, chunks):
        """The plan holds these chunks, too: the rows of those that it didn't hold."""
        rows = []
        for chunk in chunks:
            holders = self.holders.setdefault(chunk, set())
            if plan.number not in holders:
                holders.add(plan.number)
                rows += [holding_row(plan.number, chunk), tally_row(chunk, len(holders))]
        return rows

    def fork(self, name, source, k):
        """A plan of another one's kind and size, with its revision k as the only one, whose chunks both hold then."""
        if name in self.plans:
            return refused('PlanExists'), 0
        if source not in self.plans:
            return refused('NoPlan'), 0
        origin = self.plans[source]
        if not 1 <= k <= len(origin.revisions):
            return refused('NoRevision'), 0
        plan = self.plans[name] = Plan(self.next.plan, origin.kind, origin.districts)
        plan.revisions, plan.chunks = [origin.revisions[k - 1]], [origin.chunks[k - 1]]
        rows, names = self.hold(plan, plan.chunks[0]), part_rows(plan.number, 1, plan.chunks[0])
        self.put([*rows, *names, self.plan_row(name)], plan=self.next.plan + 1)
        # the plan's row and the counters are written twice
        return answer(201, {'plan': name, 'revisions': 1}), 4 + len(names) + 2 * len(self.counties(self.blocks))

    def revise(self, name, after, listed, whole, wrong=None):
        """A revision by what is listed of which block, or why there is none; a body may have a fault, by its code and line."""
        plan = self.plans.get(name)
        if plan is None:
            return refused('NoPlan'), 0
        if after != len(plan.revisions):
            return refused('Stale', current=len(plan.revisions)), 0
        if wrong:
            return refused('BadBody', code=wrong[0], line=wrong[1]), 0
        last = None if whole or not plan.revisions else plan.revisions[-1]
        county = None if whole else self.in_part(listed)
        if county:
            return refused('NotWholeCounty', county=county), 0
        return self.add(name, plan, [listed.get(f'{block.id:015}', last[place] if last else 0)
                                     for place, block in enumerate(self.blocks)])

    def in_part(self, listed):
        """The least county of which some blocks are listed, and not all."""
        for county in sorted({block[2:5] for block in self.places}):
            mine = [block in listed for block in self.places if block[2:5] == county]
            if any(mine) and not all(mine):
                return county

    def add(self, name, plan, districts):
        """One more revision: a county that is as before keeps its chunk, each other one gets the next number."""
        news = self.counties(districts)
        lasts = self.counties(plan.revisions[-1]) if plan.revisions else [None] * len(news)
        numbers = plan.chunks[-1] if plan.chunks else lasts
        chunks, rows, chunk = [], [], self.next.chunk
        for number, last, new in zip(numbers, lasts, news):
            if new != last:
                number, chunk = chunk, chunk + 1
                rows += [*chunk_rows(number, new), *self.hold(plan, [number])]
            chunks.append(number)
        plan.revisions.append(districts)
        plan.chunks.append(chunks)
        rows += [*part_rows(plan.number, len(plan.revisions), chunks), self.plan_row(name)]
        self.put(rows, chunk=chunk)
        return answer(201, {'plan': name, 'revisions': len(plan.revisions)}), len(rows) + 1

    def rows_of(self, plan):
        """The rows of a plan's revisions, and of the chunks that no other plan holds. Their districts are those of its lists."""
        parts = [row for k, chunks in enumerate(plan.chunks) for row in part_rows(plan.number, k + 1, chunks)]
        return [*parts, *(row for chunks, list_ in zip(plan.chunks, plan.revisions)
                          for chunk, districts in zip(chunks, self.counties(list_)) if not self.holders[chunk]
                          for row in chunk_rows(chunk, districts))]

    def swept(self):
        """How many rows a sweep takes out, of the plans that went, as they were made: each lets go of its chunks, and of each of them
        the number of holders is one less or no more there."""
        count = 0
        for plan in sorted(self.unswept, key=lambda plan: plan.number):
            for chunk in sorted({chunk for chunks in plan.chunks for chunk in chunks}):
                holders = self.holders[chunk]
                holders.remove(plan.number)
                key, value = tally_row(chunk, len(holders))
                self.rows[key] = value
                for gone in [holding_row(plan.number, chunk)[0], *([] if holders else [key])]:
                    del self.rows[gone]
                count += 2
            gone = {key for key, _ in [retired_row(plan.number), *self.rows_of(plan)]}
            for key in gone:
                del self.rows[key]
            count += len(gone)
        self.unswept = []
        return count

    def listed(self):
        rows = [{'districts': plan.districts, 'kind': plan.kind, 'name': name, 'revisions': len(plan.revisions)}
                for name, plan in sorted(self.plans.items())]
        return answer(200, {'plans': rows})

    def read(self, name, k):
        """What a revision is told as."""
        plan, wide = self.plans[name], 2 if self.plans[name].kind == 'congress' else 3
        codes = [f'{district:0{wide}}' if district else 'Z' * wide for district in plan.revisions[k - 1]]
        return text('BLOCKID|DISTRICT\n' + ''.join(f'{block}|{code}\n' for block, code in zip(self.places, codes)))

    def queries(self):
        """Every query of what is there and of what is next to it, and its answer."""
        yield LIST, self.listed()
        yield ask('GET /blocks'), text('BLOCKID|PLACE|POPULATION\n' + ''.join(
            f'{block.id:015}|{"" if block.city is None else f"{block.city:05}"}|{block.people}\n' for block in self.blocks))
        for name, plan in self.plans.items():
            for k in range(1, len(plan.revisions) + 1):
                yield ask(f'GET /plans/{name}/revisions/{k}'), self.read(name, k)
            for k in (0, len(plan.revisions) + 1):
                yield ask(f'GET /plans/{name}/revisions/{k}'), refused('NoRevision')
        for name in self.gone - set(self.plans):
            yield ask(f'GET /plans/{name}/revisions/1'), refused('NoPlan')


# ---- commands: each a request, and what the model does with it
def creates(name, kind='congress', districts=2):
    return ask(f'PUT /plans/{name}?kind={kind}&districts={districts}'), lambda model: model.create(name, kind, districts)


def forks(name, source, k):
    return ask(f'POST /plans/{name}?from={source}:{k}'), lambda model: model.fork(name, source, k)


def retires(name):
    return ask(f'DELETE /plans/{name}'), lambda model: model.retire(name)


def code_of(district):
    return str(district) if district else 'ZZ'


def body_of(listed, code=code_of):
    return 'BLOCKID|DISTRICT\n' + ''.join(f'{block}|{code(district)}\n' for block, district in listed.items())


def revises(name, after, listed, page='revisions', body=None, wrong=None):
    """A revision by a list of each block, or by counties: what is listed, and how it is written."""
    request = ask(f'POST /plans/{name}/{page}?after={after}', body=body or body_of(listed))
    return request, lambda model: model.revise(name, after, listed, page == 'revisions', wrong)


def all_of(*districts, blocks=BLOCKS):
    return dict(zip(blocks, districts))


# ---- comparisons
def is_kept(store, model):
    """The store's rows are those of the model, and the desk that they say is the model's."""
    desk, seen = desk_in(store)
    assert seen.rows == model.rows, (store, set(seen.rows.items()) ^ set(model.rows.items()))
    assert desk.next == model.next and desk.geography == (model.blocks, model.pairs), (desk.next, model.next)
    assert desk.version == VERSION, store
    found = {name: (plan.row.number, plan.row.kind, plan.row.districts, plan.chunks, plan.revisions)
             for name, plan in desk.plans.items()}
    wanted = {name: (plan.number, plan.kind, plan.districts, plan.chunks, plan.revisions) for name, plan in model.plans.items()}
    assert found == wanted, (found, wanted)
    swept = copy.deepcopy(model)
    assert desk.rows_left == swept.swept() and desk.left == set(model.rows) - set(swept.rows), (desk.left, desk.rows_left)
    return seen


@contextlib.contextmanager
def client_of(store):
    with served(store, 1) as port:
        client = Client(port)
        yield client
        client.close()


def is_shown(client, model):
    requests, wanted = zip(*model.queries())
    found = client.ask_all(requests)
    assert found == list(wanted), [pair for pair in zip(found, wanted) if pair[0] != pair[1]]


def opens_so(store, model):
    """The store, opened again, shows the model's desk, and keeps its rows."""
    with client_of(store) as client:
        is_shown(client, model)
    is_kept(store, model)


def does(store, model, *commands):
    """The served store answers each command as the model does, and has its rows then; opened again it shows the same."""
    with client_of(store) as client:
        for request, step in commands:
            wanted, _ = step(model)
            seen = client.ask(request)
            assert seen == wanted, (request, seen, wanted)
            is_kept(store, model)
    opens_so(store, model)
