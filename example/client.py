#!/usr/bin/env python3
"""A client of a plandesk server, in one file that needs only Python: it lists plans, audits and forks them, and moves blocks, even if
somebody else changes the plan at the same time. Use it as a command (--help has more), or import Desk.
"""
import argparse, base64, http.client, json, netrc, os, re, socket, ssl, sys
from functools import partial
from urllib.parse import quote, urlsplit

EPILOG = '''DESK is the address of the server or of the proxy before it: 127.0.0.1:8080, http://127.0.0.1:8080 or
https://desk.example.org. Without a scheme it is http.

A proxy asks for a name and a password. They come from the variables PLANDESK_USER and PLANDESK_PASSWORD, or else from ~/.netrc. They
are sent by https only.

examples:
  client.py 127.0.0.1:8080 list
  client.py 127.0.0.1:8080 audit h --senate s:3
  client.py 127.0.0.1:8080 fork draft h:2
  client.py https://desk.example.org --ca authority.pem move draft 2 190010001001001 190010001001002

statuses:
  0    done; standard output has the server's answer, as JSON
  1    the server or its proxy refused: standard error has the status, the name of the refusal and what to do
  2    the command line is wrong
  4    no server answered, or what answered is not plandesk
  6    the answer can't be printed
  130  Ctrl-C'''


# a part of a path, or a value of a query
part = partial(quote, safe='')


class Refused(Exception):
    """An answer other than the one that was asked for."""

    def __init__(self, status, text):
        super().__init__(words_of(status, text))
        self.is_by_plandesk = bool(answer_of(text))
        self.status = status


class Unreachable(Exception):
    """The reason why no server answered."""


def answer_of(text):
    """The object that a refusal of the server is; empty for a page of a proxy."""
    try:
        found = json.loads(text)
    except ValueError:
        return {}
    return found if isinstance(found, dict) and isinstance(found.get('error'), str) else {}


def words_of(status, text):
    """A refusal in one line: its status, its name and its other fields."""
    found = answer_of(text)
    if not found:
        return f'{status}: ' + {401: 'a name and a password are required, or they are wrong', 403: 'the proxy does not allow this'}.get(
            status, 'this is not an answer of plandesk')
    more = [f'{key} {value}' for key, value in found.items() if key != 'error']
    name = found.get('code', found['error'])
    return f'{status} {found["error"]}{": " if more else ""}{", ".join(more)}. What to do: plandesk explain {name}'


def place_of(address):
    """The parts of an address in any usual form."""
    if '@' in address:
        raise ValueError('the address contains an @: give the name and the password by variables or ~/.netrc')
    parts = urlsplit(address if '://' in address else f'http://{address}')
    if parts.scheme not in ('http', 'https') or not parts.hostname or parts.query or parts.fragment or not re.match(r'[!-~]+\Z', address):
        raise ValueError(f'{address!r} is not an address: write 127.0.0.1:8080, http://127.0.0.1:8080 or https://desk.example.org')
    return parts.scheme, parts.hostname, parts.port, parts.path.rstrip('/')


def authorization(host):
    """The header with the name and the password for a host, if there are any (RFC 7617)."""
    pair = os.environ.get('PLANDESK_USER'), os.environ.get('PLANDESK_PASSWORD')
    if None in pair:
        try:
            found = netrc.netrc().authenticators(host)
        except (OSError, netrc.NetrcParseError):
            found = None
        pair = (found[0], found[2]) if found else None
    return {'Authorization': 'Basic ' + base64.b64encode(':'.join(pair).encode()).decode()} if pair else {}


class Desk:
    """A server, asked over one connection that stays open."""

    def __init__(self, address, authority=None):
        scheme, host, port, self.path = place_of(address)
        self.heads = authorization(host) if scheme == 'https' else {}
        if scheme == 'https':
            trust = ssl.create_default_context(cafile=authority)
            self.connection = http.client.HTTPSConnection(host, port, timeout=60, context=trust)
        else:
            self.connection = http.client.HTTPConnection(host, port, timeout=60)

    def ask(self, method, path, body=None):
        """The status and the text of the answer. The server closes a connection that asks nothing for some seconds; then the request is
        sent again on a new one. If the server had saved a revision before it closed, the second answer is Stale."""
        stayed = self.connection.sock is not None
        try:
            try:
                self.connection.request(method, self.path + path, body, self.heads)
            except (BrokenPipeError, ConnectionResetError):
                pass  # a refusal may have come before the whole body was sent
            answer = self.connection.getresponse()
            return answer.status, answer.read().decode()
        except (BrokenPipeError, ConnectionResetError):
            self.connection.close()
            if not stayed:
                raise
        return self.ask(method, path, body)

    def done(self, method, path, body=None):
        """The text of an answer whose status is 200 or 201; any other one is raised."""
        status, text = self.ask(method, path, body)
        if status not in (200, 201):
            raise Refused(status, text)
        return text

    def plans(self):
        return json.loads(self.done('GET', '/plans'))['plans']

    def revisions(self, plan):
        """The number of a plan's last revision, 0 if there is no such plan."""
        return next((found['revisions'] for found in self.plans() if found['name'] == plan), 0)

    def address(self, word):
        """A plan and a revision of it from NAME or NAME:K, which is the last one without K."""
        plan, colon, number = word.partition(':')
        return plan, number if colon else str(self.revisions(plan))

    def audit(self, word, **companions):
        """The report of a revision, as JSON, next to those of the companions, by the names of their kinds."""
        plan, number = self.address(word)
        query = '&'.join(f'{kind}={part(":".join(self.address(other)))}' for kind, other in companions.items() if other)
        return self.done('GET', f'/plans/{part(plan)}/revisions/{part(number)}/audit' + (f'?{query}' if query else ''))

    def fork(self, new, word):
        """Makes a plan whose first revision is the one that the word names."""
        return self.done('POST', f'/plans/{part(new)}?from={part(":".join(self.address(word)))}')

    def last(self, plan):
        """The number of the plan's last revision, and its text."""
        number = self.revisions(plan)
        return number, self.done('GET', f'/plans/{part(plan)}/revisions/{number}') if number else 'BLOCKID|DISTRICT\n'

    def change(self, plan, edit):
        """Posts what `edit` makes of the last revision as the next one: the status and the text of the answer. If somebody else's
        revision came first, the server answers Stale: the new last one is read and edited in its turn."""
        while True:
            number, text = self.last(plan)
            status, said = self.ask('POST', f'/plans/{part(plan)}/revisions?after={number}', edit(text))
            if status != 409 or answer_of(said).get('error') != 'Stale':
                return status, said

    def move(self, plan, district, blocks):
        """Moves blocks to a district of a plan, in a new revision."""
        status, said = self.change(plan, lambda text: moved(text, blocks, district))
        if status != 201:
            raise Refused(status, said)
        return said


def moved(text, blocks, district):
    """The text with these blocks in the district; the other lines stay."""
    head, *lines = text.splitlines()
    taken = set(blocks)
    others = [line for line in lines if line.split('|')[0] not in taken]
    return '\n'.join([head, *others, *(f'{block}|{district}' for block in blocks)]) + '\n'


def answered(given):
    """The server's answer to a command; the reason is raised in words if there is none."""
    try:
        desk = Desk(given.desk, given.ca)
        text = given.work(desk, given)
        json.loads(text)
        return text
    except ssl.SSLCertVerificationError as fault:
        raise Unreachable(f'the certificate was not accepted ({fault.verify_message}): give --ca, or the name in the certificate') from None
    except ssl.SSLError:
        raise Unreachable('what listens there does not speak TLS: write http, or the port of the proxy') from None
    except (socket.gaierror, UnicodeError):
        raise Unreachable('no address was found for this name: check the spelling') from None
    except (json.JSONDecodeError, KeyError, TypeError):
        raise Unreachable('what answers there is not plandesk: check the address') from None
    except (OSError, http.client.HTTPException) as fault:
        raise Unreachable(f'there is no answer ({fault or type(fault).__name__}): check that the server runs, and the port') from None


def options():
    parser = argparse.ArgumentParser(prog='client.py', description=__doc__.split('.')[0] + '.', epilog=EPILOG,
                                     formatter_class=argparse.RawDescriptionHelpFormatter)
    parser.add_argument('desk', metavar='DESK', help='the address of the server, such as 127.0.0.1:8080')
    parser.add_argument('--ca', metavar='FILE', help="the authority's certificates, as PEM; otherwise those of the system")
    commands = parser.add_subparsers(metavar='COMMAND', required=True)

    def command(name, about, work):
        made = commands.add_parser(name, help=about, description=about[0].upper() + about[1:] + '.')
        made.set_defaults(work=work)
        return made
    command('list', 'lists the plans', lambda desk, given: json.dumps({'plans': desk.plans()}, separators=(',', ':')))
    audit = command('audit', 'audits a revision of a plan',
                    lambda desk, given: desk.audit(given.plan, senate=given.senate, congress=given.congress))
    audit.add_argument('plan', metavar='PLAN[:K]', help='the plan and the number of the revision; otherwise the last one')
    for kind in 'senate', 'congress':
        audit.add_argument(f'--{kind}', metavar='PLAN[:K]', help=f'the {kind} plan next to which it is audited')
    fork = command('fork', 'makes a plan whose first revision is one of another plan', lambda desk, given: desk.fork(given.new, given.plan))
    fork.add_argument('new', metavar='NEW', help='the name of the new plan')
    fork.add_argument('plan', metavar='PLAN[:K]', help='the plan and the number of the revision; otherwise the last one')
    move = command('move', 'moves blocks to a district, in a new revision of the plan',
                   lambda desk, given: desk.move(given.plan, given.district, given.blocks))
    move.add_argument('plan', metavar='PLAN', help='the name of the plan')
    move.add_argument('district', metavar='DISTRICT', help='the number of the district')
    move.add_argument('blocks', metavar='BLOCK', nargs='+', help='a block, by its 15 digits')
    given = parser.parse_args()
    try:
        place_of(given.desk)
        if given.ca:
            ssl.create_default_context(cafile=given.ca)
    except ssl.SSLError:
        parser.error(f'--ca: {given.ca} has no certificate')
    except (OSError, ValueError) as fault:
        parser.error(str(fault))
    return given


def main():
    given = options()
    try:
        print(answered(given).rstrip('\n'), flush=True)
    except (Refused, Unreachable) as fault:
        print(f'client.py: {fault}', file=sys.stderr)
        return 1 if isinstance(fault, Refused) and (fault.is_by_plandesk or fault.status in (401, 403)) else 4
    except KeyboardInterrupt:
        return 130
    except OSError:
        os.dup2(os.open(os.devnull, os.O_WRONLY), 1)
        return 6
    return 0


if __name__ == '__main__':
    sys.exit(main())
