"""Runs of the tools and of the clients over a desk that is served for as long as a test lasts, what their pages have, and an address at
which something answers that is no desk: for the scripts that try what asks a desk.
"""
import contextlib, html, http.server, os, re, subprocess, threading

from made_state import here
from serving import start

root = os.path.join(here, '..')
# what a test's own surroundings might say of names and passwords, and of proxies
LOGINS = 'PLANDESK_USER', 'PLANDESK_PASSWORD', 'SSL_CERT_FILE', 'SSL_CERT_DIR'


def ran(name, *words, given=b'', output=subprocess.PIPE, home='/nowhere', place='tools', within=None, **environment):
    """How a tool ends, what it prints and what it tells."""
    clean = {key: value for key, value in os.environ.items() if key not in LOGINS}
    done = subprocess.run([os.path.join(root, place, name), *words], input=given, stdout=output, stderr=subprocess.PIPE, timeout=100,
                          cwd=within, env={**clean, 'HOME': home, **environment})
    return done.returncode, done.stdout, done.stderr.decode()


def tool(name, *words, status=0, told='', **more):
    """What a tool prints, where it ends so."""
    ends, printed, said = ran(name, *words, **more)
    assert (ends, said) == (status, told), (name, words, ends, printed, said)
    return printed.decode() if printed is not None else ''


def refused(name, *words, status, code, **more):
    """That a tool tells this fault alone."""
    assert tool(name, *words, status=status, told=f'{name}: {code}\n', **more) == ''


@contextlib.contextmanager
def desk(store, workers=4, **more):
    """The address at which a store is served, for as long as this lasts."""
    process, port, listens = start(store, connections=100_000, workers=workers, **more)
    try:
        assert listens, process.stderr.read()
        yield f'http://127.0.0.1:{port}'
    finally:
        process.kill()
        process.communicate()


def port_of(address):
    return int(address.rsplit(':', 1)[1])


def held(*parts):
    with open(os.path.join(*parts), 'rb') as file:
        return file.read()


def page(*parts):
    return held(*parts).decode()


def texts(said):
    """What a reader sees of some elements."""
    return [html.unescape(re.sub('<[^>]*>', '', each)) for each in said]


def rows(said):
    """The texts of the cells in each line of a page's tables."""
    return [texts(re.findall(r'<t[hd]\b[^>]*>(.*?)</t[hd]>', line, re.S)) for line in re.findall(r'<tr\b.*?</tr>', said, re.S)]


def links(said):
    return re.findall(r'<a href="([^"]*)"', said)


class Answering(http.server.BaseHTTPRequestHandler):
    """Answers each GET with what the test says, and closes the connection."""

    def do_GET(self):
        status, body, length = self.server.said
        self.send_response(status)
        self.send_header('Content-Length', str(len(body) if length is None else length))
        self.end_headers()
        self.wfile.write(body)
        self.server.asked.append(self.headers)

    def log_message(self, *_):
        pass


@contextlib.contextmanager
def answering(status, body=b'', length=None, trust=None):
    """An address at which something answers so, which is no desk, and the heads that it was asked with; by TLS where a context is
    given."""
    with http.server.ThreadingHTTPServer(('127.0.0.1', 0), Answering) as server:
        if trust:
            server.socket = trust.wrap_socket(server.socket, server_side=True)
        server.said, server.asked = (status, body, length), []
        threading.Thread(target=server.serve_forever, daemon=True).start()
        yield f'http://127.0.0.1:{server.server_port}', server.asked
        server.shutdown()
