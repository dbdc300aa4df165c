"""For the tools that ask a served desk: who asks, and whose certificates are believed."""
import argparse, base64, netrc, os, ssl

from audit import Refused

USER, PASSWORD = 'PLANDESK_USER', 'PLANDESK_PASSWORD'
# for the tools' help
ABOUT = """A name and a password are sent by https only. They come from the first of these that is given: the file of --netrc, the variables
PLANDESK_USER and PLANDESK_PASSWORD, or ~/.netrc, which nobody else may read."""


def add_options(parser):
    """The options of every tool that asks a desk, which may stand behind a proxy."""
    parser.formatter_class = argparse.RawDescriptionHelpFormatter
    parser.add_argument('--netrc', metavar='FILE', help='a file with lines such as `machine desk.example.org login clerk password '
                        f'"of ink"`; otherwise the variables {USER} and {PASSWORD}, and then ~/.netrc')
    parser.add_argument('--ca', metavar='FILE', help="the certificates of the authority that signed the proxy's, as PEM; otherwise "
                        "those of the system, or of the file that SSL_CERT_FILE names")


def from_netrc(host, path):
    """The name and the password that the file has for a host, if it has any. The file at home may be missing."""
    try:
        found = netrc.netrc(path).authenticators(host)
    except FileNotFoundError:
        if path is None:
            return None
        raise Refused('BadNetrc', 2) from None
    except (OSError, ValueError, netrc.NetrcParseError):
        raise Refused('BadNetrc', 2) from None
    return (found[0], found[2]) if found and found[0] and found[2] else None


def login(host, path=None):
    """The name and the password with which a host is asked, or none."""
    given = os.environ.get(USER), os.environ.get(PASSWORD)
    if path is None and given != (None, None):
        if not all(given):
            raise Refused('HalfLogin', 2)
        return given
    return from_netrc(host, path)


def authorization(pair):
    """The line that tells them (RFC 7617), in which a colon ends the name."""
    if pair is None:
        return {}
    name, password = pair
    if ':' in name or not (name + password).isprintable():
        raise Refused('HalfLogin', 2)
    return {'Authorization': 'Basic ' + base64.b64encode(f'{name}:{password}'.encode('utf-8', 'surrogateescape')).decode()}


def trust(path=None):
    """What a certificate is judged by."""
    try:
        return ssl.create_default_context(cafile=path)
    except (OSError, ValueError):
        raise Refused('BadAuthority', 2) from None
