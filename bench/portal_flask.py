#!/usr/bin/env python3
"""The peer of bench/portal: a server of plans as one writes it with Flask and SQLite in an afternoon. It answers the requests of
bench/portal, rejects a text that isn't a block assignment file, stores each revision as a row (WAL, full syncs), and audits it in plain
Python: complete, mean, range and contiguity.

portal_flask.py FOLDER DATABASE PORT, where FOLDER has the files of a state that bench/check.rs made.
"""
import json, sqlite3, sys, threading
from array import array

import flask
from werkzeug.serving import WSGIRequestHandler, make_server

FOLDER, DATABASE, PORT = sys.argv[1:]
app, local = flask.Flask(__name__), threading.local()


def fields(name, *places):
    """These fields of each line of a census file."""
    with open(f'{FOLDER}/{name}') as file:
        for line in file:
            cells = line.split('|')
            yield [cells[place - 1] for place in places]


def state():
    """The blocks in rising order, the people of each and its neighbours."""
    ids = {number: state + county + tract + block for level, number, state, county, tract, block in fields('geo', 3, 8, 13, 15, 33, 35)
           if level == '750'}
    counts = {ids[number]: int(count) for number, count in fields('seg1', 5, 6) if number in ids}
    blocks = sorted(counts)
    places, near = {block: place for place, block in enumerate(blocks)}, [()] * len(blocks)
    with open(f'{FOLDER}/gal') as file:
        next(file)
        for head in file:
            near[places[head.split()[0]]] = array('I', [places[other] for other in next(file).split()])
    return blocks, [counts[block] for block in blocks], places, near


BLOCKS, PEOPLE, PLACES, NEAR = state()


def database():
    if not hasattr(local, 'database'):
        local.database = sqlite3.connect(DATABASE, timeout=600)
        local.database.execute('pragma synchronous=full')
    return local.database


def answer(status, body, kind='application/json'):
    return flask.Response(body, status, content_type=kind)


def refused(status, name):
    return answer(status, json.dumps({'error': name}))


@app.put('/plans/<name>')
def make(name):
    try:
        with database() as writes:
            writes.execute('insert into plans values (?, ?, ?)', (name, flask.request.args['kind'], int(flask.request.args['districts'])))
    except sqlite3.IntegrityError:
        return refused(409, 'PlanExists')
    return answer(201, json.dumps({'plan': name, 'revisions': 0}))


def districts_of(text, most):
    """The district of each block, 0 for none; nothing for a text that is no block assignment file."""
    lines = text.split('\n')
    if lines[0] != 'BLOCKID|DISTRICT':
        return None
    found, seen = array('H', bytes(2 * len(BLOCKS))), 0
    for line in lines[1:-1]:
        block, bar, district = line.partition('|')
        place = PLACES.get(block)
        if place is None or not bar or not district.isdigit() or not 1 <= int(district) <= most or found[place]:
            return None
        found[place] = int(district)
        seen += 1
    return found


@app.post('/plans/<name>/revisions')
def post(name):
    plan = database().execute('select districts from plans where name = ?', (name,)).fetchone()
    if plan is None:
        return refused(404, 'NoPlan')
    found = districts_of(flask.request.get_data().decode('ascii', 'replace'), plan[0])
    if found is None:
        return refused(422, 'BadBody')
    try:
        with database() as writes:
            writes.execute('insert into revisions values (?, ?, ?)', (name, int(flask.request.args['after']) + 1, found.tobytes()))
    except sqlite3.IntegrityError:
        return refused(409, 'Stale')
    return answer(201, json.dumps({'plan': name, 'revisions': 1}))


def revision(name, number):
    row = database().execute('select blocks, districts from revisions join plans on plan = name where plan = ? and number = ?',
                             (name, number)).fetchone()
    return row and (array('H', row[0]), row[1])


@app.get('/plans/<name>/revisions/<int:number>')
def read(name, number):
    found = revision(name, number)
    if found is None:
        return refused(404, 'NoRevision')
    lines = [f'{block}|{district:03}\n' for block, district in zip(BLOCKS, found[0])]
    return answer(200, 'BLOCKID|DISTRICT\n' + ''.join(lines), 'text/plain')


def pieces(districts, count):
    """The number of pieces of each district."""
    found, seen = [0] * (count + 1), bytearray(len(districts))
    for start, district in enumerate(districts):
        if seen[start]:
            continue
        found[district] += 1
        seen[start], waiting = 1, [start]
        while waiting:
            for other in NEAR[waiting.pop()]:
                if not seen[other] and districts[other] == district:
                    seen[other] = 1
                    waiting.append(other)
    return found


@app.get('/plans/<name>/revisions/<int:number>/audit')
def audit(name, number):
    found = revision(name, number)
    if found is None:
        return refused(404, 'NoRevision')
    districts, count = found
    people = [0] * (count + 1)
    for district, each in zip(districts, PEOPLE):
        people[district] += each
    total, parts = sum(PEOPLE), pieces(districts, count)
    broken = {'desk.complete': 0 in districts, '42.4.1.a.mean': 100 * sum(abs(count * each - total) for each in people[1:]) > count * total,
              '42.4.1.a.range': 20 * max(people[1:]) > 21 * min(people[1:]), '42.4.3': any(part != 1 for part in parts[1:])}
    return answer(200, json.dumps({'broken': [name for name, is_so in broken.items() if is_so], 'populations': people[1:],
                                   'contiguity': [district for district in range(1, count + 1) if parts[district] != 1]},
                                  separators=(',', ':')))


def main():
    with database() as writes:
        writes.execute('pragma journal_mode=wal')
        writes.execute('create table plans (name text primary key, kind text, districts integer)')
        writes.execute('create table revisions (plan text, number integer, blocks blob, primary key (plan, number))')
    WSGIRequestHandler.log_request = lambda *_: None
    server = make_server('127.0.0.1', int(PORT), app, threaded=True)
    print(f'listening on 127.0.0.1:{PORT}', flush=True)
    server.serve_forever()


main()
