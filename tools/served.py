"""For the tools that ask a served desk: what it is asked, over HTTP, on one connection that is kept."""
import hashlib, http.client, json, re, select, socket, ssl
from urllib.parse import urlsplit

from audit import SIZES, Refused
from login import authorization, login, trust

# a revision of 1,048,576 blocks has some 21 million bytes, the list of 65,535 plans some eight
LARGEST = 64 << 20
SECONDS = 60
NAME = re.compile(r'[A-Za-z0-9._-]{1,64}\Z')
BLOCK = re.compile(r'([0-9]{15})\|([0-9]{1,3}|ZZ|ZZZ|)\Z')
PLACED = re.compile(r'([0-9]{15})\|([0-9]{5})?\|([0-9]{1,10})\Z')
PLAN_KEYS = {'name', 'kind', 'districts', 'revisions'}
# every fault of a tool that asks a desk, for its help and for a terminal
MEANINGS = {
    'BadAddress': "the address is not one of http or https, or it has a query. Write it as https://desk.example.org",
    'PasswordInAddress': 'the address contains an @. Change a password that others may have seen, and give it by --netrc',
    'HalfLogin': 'only one of the variables PLANDESK_USER and PLANDESK_PASSWORD is set, the name contains a colon, or one of them '
                 'contains a control character. Set both, or neither',
    'BadNetrc': 'the file of names and passwords is missing, is not such a file, or others may read the one in your home folder. '
                'Check the path, and run chmod 600 ~/.netrc',
    'BadAuthority': 'the file of --ca is missing or has no certificate. Give a PEM file',
    'UnknownHost': 'no address was found for the name in the address, so nothing was asked. Check the spelling, /etc/hosts and the DNS',
    'NoAnswer': 'there is no connection, or it broke before the answer was complete. Check that the server and the proxy run, and '
                'the port',
    'BadCertificate': "the certificate is from an unknown authority, for another name, or expired. Give --ca, or write the server's "
                      'name as the certificate has it',
    'NoTls': 'what listens there does not speak TLS. Write http, or the port of the proxy',
    'NoLogin': '401, a name and a password are required, and none was found. Give them by --netrc or the two variables',
    'BadLogin': '401, the name or the password is wrong. Check both',
    'Forbidden': '403, the proxy does not allow this to this name. Ask whoever runs the server',
    'NoDesk': '502, 503 or 504, the proxy answers and the server behind it does not. Start the server',
    'NotADesk': 'the answer is not one that plandesk gives. Check the address, and whether it begins with https',
    'BadPlans': 'the list of plans is not one that plandesk gives. Check the address',
    'BadBlocks': 'the list of blocks is not one that plandesk gives. Check the address',
    'BadRevision': 'the text of a revision is not one that plandesk gives. Check the address',
    'TooLarge': 'the answer is longer than 64 MiB (67,108,864 bytes). Check the address',
    'desk': "the server refused: the status and its own name for the reason follow. Run plandesk explain with that name"}
# what a connection that was kept too long ends with: a question may be asked again on a new one
ENDED = ConnectionResetError, BrokenPipeError, http.client.RemoteDisconnected


class Desk:
    """A desk at an address as http://127.0.0.1:8080, or behind a proxy at one as https://desk.example.org."""

    def __init__(self, address, netrc=None, authority=None):
        if '@' in address:
            # it isn't told again: it may have a password
            raise Refused('PasswordInAddress', 2)
        try:
            parts = urlsplit(address)
            port = parts.port
        except ValueError:
            raise Refused('BadAddress', 2) from None
        plain = re.match(r'[!-~]+\Z', address) and parts.hostname
        if parts.scheme not in ('http', 'https') or not plain or parts.query or parts.fragment:
            raise Refused('BadAddress', 2)
        self.path, self.heads = parts.path.rstrip('/'), {}
        if parts.scheme == 'https':
            # a name and a password are told by TLS alone
            self.heads = authorization(login(parts.hostname, netrc))
            self.connection = http.client.HTTPSConnection(parts.hostname, port, timeout=SECONDS, context=trust(authority))
        else:
            self.connection = http.client.HTTPConnection(parts.hostname, port, timeout=SECONDS)

    def close(self):
        self.connection.close()

    def is_kept(self):
        """Whether the last connection is still there: one that was ended while nothing was asked has its end to read."""
        kept = self.connection.sock
        if kept is not None and select.select([kept], [], [], 0)[0]:
            self.close()
        return self.connection.sock is not None

    def answer(self, method, path, body):
        """The status and the body of the answer."""
        kept = self.is_kept()
        try:
            self.connection.request(method, self.path + path, body, self.heads)
            answer = self.connection.getresponse()
            found = answer.read(LARGEST + 1)
            if answer.length and len(found) <= LARGEST:
                # `read` itself takes a body that was cut for a whole one
                raise http.client.IncompleteRead(found)
            return answer.status, found
        except ENDED:
            self.close()
            if kept and method == 'GET':
                return self.answer(method, path, body)
            raise

    def ask(self, path, method='GET', body=None):
        """The body of the answer to a request that is carried out; a refusal has the desk's name of it."""
        try:
            status, found = self.answer(method, path, body)
        except ssl.SSLCertVerificationError:
            raise Refused('BadCertificate', 4) from None
        except ssl.SSLError as fault:
            raise Refused('NoAnswer' if isinstance(fault, ssl.SSLEOFError) else 'NoTls', 4) from None
        except (socket.gaierror, UnicodeError):
            raise Refused('UnknownHost', 4) from None
        except (OSError, http.client.HTTPException, ValueError):
            raise Refused('NoAnswer', 4) from None
        if len(found) > LARGEST:
            raise Refused('TooLarge', 4)
        if status not in (200, 201):
            raise Refused(self.refused(status, found), 4)
        return found

    def refused(self, status, body):
        """Why there is no answer: the desk's own word, or what a proxy before it says."""
        name = refusal(body)
        if name:
            return f'desk {status} {name}'
        if status == 401:
            return 'BadLogin' if self.heads else 'NoLogin'
        if status == 403:
            return 'Forbidden'
        return f'NoDesk {status}' if status in (502, 503, 504) else f'NotADesk {status}'

    def audit(self, plan, revision, **beside):
        """The report of a revision, beside those of the companions that are given by the names of their kinds."""
        query = '&'.join(f'{kind}={address}' for kind, address in beside.items() if address)
        return self.ask(f'/plans/{plan}/revisions/{revision}/audit' + (f'?{query}' if query else ''))

    def plans(self):
        """Each plan's name, kind, number of districts and number of revisions."""
        try:
            plans = json.loads(self.ask('/plans').decode())['plans']
        except (ValueError, KeyError, TypeError, RecursionError):
            raise Refused('NotADesk', 4) from None
        if not isinstance(plans, list) or not all(map(is_plan, plans)) or len({plan['name'] for plan in plans}) < len(plans):
            raise Refused('BadPlans', 4)
        return [(plan['name'], plan['kind'], plan['districts'], plan['revisions']) for plan in plans]

    def text(self, plan, revision):
        """A revision as its text, a block assignment file."""
        return self.ask(f'/plans/{plan}/revisions/{revision}')

    def districts(self, plan, revision):
        """The code of each block in a revision; the county of a block is its first five digits."""
        return districts(self.text(plan, revision))

    def blocks(self):
        """The text that lists the blocks, each with its place and its people."""
        return self.ask('/blocks')


def is_name(text):
    return isinstance(text, str) and NAME.match(text) is not None


def is_plan(value):
    """Whether a value of JSON tells of a plan, by the keys that a desk's list has."""
    if not isinstance(value, dict) or not PLAN_KEYS <= value.keys() or not isinstance(value['kind'], str):
        return False
    districts, revisions = value['districts'], value['revisions']
    return is_name(value['name']) and type(districts) is int and type(revisions) is int and \
        1 <= districts <= SIZES.get(value['kind'], 0) and 0 <= revisions <= 65_535


def refusal(body):
    """The name of a refusal, where the body has one."""
    try:
        name = json.loads(body.decode())['error']
    except (ValueError, KeyError, TypeError, RecursionError):
        return ''
    return name if isinstance(name, str) and re.match(r'[A-Za-z]{1,40}\Z', name) else ''


def digest(data):
    return hashlib.sha256(data).hexdigest()


def lines_of(body, head, line, code):
    """What the line's parts match in each line behind the head."""
    lines = body.decode('latin-1').split('\n')
    found = [line.match(each) for each in lines[1:] if each]
    if lines[0] != head or None in found:
        raise Refused(code, 4)
    return found


def districts(text):
    """The code of each block that a block assignment text lists."""
    return {match[1]: match[2] for match in lines_of(text, 'BLOCKID|DISTRICT', BLOCK, 'BadRevision')}


def people(text):
    """The people of each block, from the desk's list of blocks."""
    return {match[1]: int(match[3]) for match in lines_of(text, 'BLOCKID|PLACE|POPULATION', PLACED, 'BadBlocks')}


def overlaps(before, after):
    """The blocks of each county by their codes in one plan and in another: for each such pair the blocks."""
    found = {}
    for block in sorted(before.keys() | after.keys()):
        pair = before.get(block, ''), after.get(block, '')
        found.setdefault(block[:5], {}).setdefault(pair, []).append(block)
    return found
