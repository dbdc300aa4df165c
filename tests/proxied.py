"""For tests/proxy and tests/browser: nginx with the configurations of tools/ before served desks. Certificates and names are made here."""
import contextlib, os, shutil, subprocess, time

from made_state import here
from serving import connect, free_port
from tooling import root

NAMES = {'clerk': 'of ink', 'reader': 'of glass'}


def words_of(*command):
    return subprocess.run(command, check=True, capture_output=True, text=True, timeout=60).stdout.strip()


def certificate(folder, name, *hosts):
    """A certificate for these hosts that is its own authority, and its key."""
    words_of('openssl', 'req', '-x509', '-newkey', 'rsa:2048', '-nodes', '-days', '2', '-subj', f'/CN={hosts[0]}',
             '-addext', 'subjectAltName=' + ','.join(f'DNS:{host}' for host in hosts),
             '-keyout', f'{folder}/{name}-key.pem', '-out', f'{folder}/{name}.pem')


def placed(folder, name, *changes):
    """The text of a configuration of tools/, with files in the folder and these changes, each of which meets something."""
    with open(os.path.join(root, 'tools', name)) as file:
        text = file.read()
    for old, new in (('/etc/plandesk', folder), ('/var/log/nginx', folder), ('/var/lib/nginx', folder), ('/run/', f'{folder}/'), *changes):
        assert old in text, old
        text = text.replace(old, new)
    return 'daemon off;\n' + ('user root;\n' if os.getuid() == 0 else '') + text


@contextlib.contextmanager
def running(folder, text, port):
    """An nginx with this configuration, which listens at the port."""
    with open(f'{folder}/nginx.conf', 'w') as file:
        file.write(text)
    words = [shutil.which('nginx'), '-e', f'{folder}/first', '-c', f'{folder}/nginx.conf']
    tried = subprocess.run([*words, '-t'], capture_output=True, text=True, timeout=60)
    assert tried.returncode == 0 and 'warn' not in tried.stderr, tried.stderr
    nginx = subprocess.Popen(words)
    try:
        for _ in range(100):
            try:
                connect(port).close()
                break
            except OSError:
                time.sleep(0.05)
        yield port
    finally:
        nginx.terminate()
        nginx.wait(timeout=60)


@contextlib.contextmanager
def proxied(folder, desk, listed=True):
    """The port of a proxy before the desk at this port, with `localhost` as a further name. Unless the address of that name is listed
    among the origins with its port, a page of the proxy's own is one of another origin."""
    port = free_port()
    certificate(folder, 'certificate', 'desk.example.org', 'localhost')
    os.rename(f'{folder}/certificate-key.pem', f'{folder}/key.pem')
    with open(f'{folder}/names', 'w') as names:
        names.write(''.join(f'{name}:{words_of("openssl", "passwd", "-apr1", word)}\n' for name, word in NAMES.items()))
    origin = f'"https://localhost{f":{port}" if listed else ""}" 0;'
    text = placed(folder, 'nginx.conf', ('listen 443 ssl', f'listen 127.0.0.1:{port} ssl'), ('127.0.0.1:8080', f'127.0.0.1:{desk}'),
                  ('server_name desk.example.org', 'server_name desk.example.org localhost'),
                  ('"https://desk.example.org" 0;', f'"https://desk.example.org" 0; {origin}'),
                  ('/usr/local/lib/plandesk/example', os.path.realpath(os.path.join(here, '../example'))))
    with running(folder, text, port):
        yield port


@contextlib.contextmanager
def spread(folder, first, second):
    """The port of a proxy for readers before the desks at two ports. A client may come from any address of the loopback."""
    port = free_port()
    certificate(folder, 'certificate', 'plans.example.org')
    os.rename(f'{folder}/certificate-key.pem', f'{folder}/key.pem')
    text = placed(folder, 'nginx-readers.conf', ('listen 443 ssl', f'listen 127.0.0.1:{port} ssl'), ('127.0.0.1:8081', f'127.0.0.1:{first}'),
                  ('127.0.0.1:8082', f'127.0.0.1:{second}'))
    with running(folder, text, port):
        yield port
