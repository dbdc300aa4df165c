"""For tests/streams, tests/wire, tests/pieces, tests/kept, tests/tables and tests/filled: requests to a desk with the sample
geography, and what it answers.

The answers are put together by the rules of docs/INPUT-FILES.md, docs/ERRORS.md, docs/LAW.md and docs/REPORT.md.
"""
import json

BLOCKS = ['190010001001001', '190010001001002', '190030001001001', '190030001001002']
REASONS = {200: 'OK', 201: 'Created', 400: 'Bad Request', 404: 'Not Found', 405: 'Method Not Allowed', 409: 'Conflict',
           413: 'Content Too Large', 422: 'Unprocessable Content', 431: 'Request Header Fields Too Large', 501: 'Not Implemented',
           503: 'Service Unavailable', 507: 'Insufficient Storage'}
STATUSES = {'HeadTooLarge': 431, 'BadCoding': 501, 'BodyTooLarge': 413, 'UnknownMethod': 501, 'NoRoute': 404,
            'MethodNotAllowed': 405, 'NoPlan': 404, 'NoRevision': 404, 'PlanExists': 409, 'Stale': 409, 'BadBody': 422,
            'NotWholeCounty': 422, 'BadCompanion': 422, 'NotSealed': 409, 'Halted': 503, 'Full': 507}
CLOSES = 'Connection: close'


def head(*lines):
    return '\r\n'.join(lines) + '\r\n\r\n'


def ask(line, *lines, body=''):
    length = [f'Content-Length: {len(body)}'] if body else []
    return head(f'{line} HTTP/1.1', 'Host: d', *lines, *length) + body


def chunked(line, rest, coding='chunked'):
    return ask(line, f'Transfer-Encoding: {coding}') + rest


def answer(status, body, *lines, bare=False, kind='application/json'):
    text = body if isinstance(body, str) else json.dumps(body, separators=(',', ':'), sort_keys=True)
    return head(f'HTTP/1.1 {status} {REASONS[status]}', f'Content-Type: {kind}', f'Content-Length: {len(text)}',
                *lines) + ('' if bare else text)


def refused(name, *lines, bare=False, **more):
    return answer(STATUSES.get(name, 400), {'error': name, **more}, *lines, bare=bare)


def wrong_method(methods, *lines, bare=False):
    return refused('MethodNotAllowed', f'Allow: {methods}', *lines, bare=bare)


def made(plan, revisions):
    return answer(201, {'plan': plan, 'revisions': revisions})


def gone(plan):
    return answer(200, {'plan': plan, 'retired': True})


def plans(*lines, bare=False, **revisions):
    rows = [{'districts': 2, 'kind': 'congress', 'name': name, 'revisions': n} for name, n in revisions.items()]
    return answer(200, {'plans': rows}, *lines, bare=bare)


def baf(*codes, blocks=BLOCKS, end='\n'):
    return end.join(['BLOCKID|DISTRICT'] + [f'{block}|{code}' for block, code in zip(blocks, codes)])


def text(body, bare=False):
    return answer(200, body, bare=bare, kind='text/plain')


def create(plan, kind='congress'):
    return ask(f'PUT /plans/{plan}?kind={kind}&districts=2')


def fork(plan, source, k=1):
    return ask(f'POST /plans/{plan}?from={source}:{k}')


def post(plan, after, body):
    return ask(f'POST /plans/{plan}/revisions{after}', body=body)


def patch(plan, after, body):
    return ask(f'POST /plans/{plan}/counties{after}', body=body)


def get(path):
    return ask(f'GET /plans{path}')


WHOLE, DIAGONAL = baf('01', '01', '02', '02') + '\n', baf('01', '02', '02', '01') + '\n'
COUNTY, PART = baf('1', '1', blocks=BLOCKS[2:]) + '\n', baf('1', blocks=BLOCKS[2:]) + '\n'
HOUSE = baf('001', '001', '002', '002') + '\n'
LISTED = 'BLOCKID|PLACE|POPULATION\n' + ''.join(
    f'{block}|{place}|{people}\n' for block, place, people in zip(BLOCKS, ['00100'] * 3 + [''], [505, 505, 495, 495]))
REPORT = {'broken': [], 'cities': ['00100'], 'cities_in_county': [], 'congress': [], 'contiguity': [], 'counties': [],
          'districts': 2, 'divided_by_congress': None, 'kind': 'house', 'nesting': [], 'not_asked': ['42.4.6'], 'population': 2000,
          'populations': [1010, 990], 'range': None, 'unassigned': 0}
NESTED = {**REPORT, 'broken': ['42.4.6'], 'nesting': [1, 2], 'not_asked': []}
CROSSED = {**REPORT, 'broken': ['42.4.3'], 'cities_in_county': ['00100'], 'counties': ['001', '003'], 'kind': 'senate',
           'contiguity': [{'district': 1, 'from': BLOCKS[0], 'to': BLOCKS[3]},
                          {'district': 2, 'from': BLOCKS[1], 'to': BLOCKS[2]}],
           'not_asked': [], 'populations': [1000, 1000]}
# all blocks in the first of two districts
ONE_DISTRICT = {**REPORT, 'broken': ['42.4.1.a.mean', '42.4.1.a.range', '42.4.3'], 'cities': [], 'contiguity': [{'district': 2}],
                'populations': [2000, 0], 'range': [1, 2]}
LIST, NONE = get(''), plans()
