"""What the tests of servers share: a port, a client, a backend that takes its time, and a certificate for TLS."""
import collections
import http.client
import os
import shutil
import socket
import ssl
import subprocess
import threading
import time

import filters

TOP = os.path.dirname(os.path.dirname(os.path.abspath(__file__)))
PATIENCE = 30
LIBRARY = os.path.join(TOP, 'crates', 'host_lib', 'out', 'libhost_lib.a')

Answer = collections.namedtuple('Answer', 'status fields body whole')


def free_port():
    with socket.socket() as listener:
        listener.bind(('127.0.0.1', 0))
        return listener.getsockname()[1]


def wait_for(port):
    """Waits until somebody listens on a port."""
    end = time.time() + PATIENCE
    while time.time() < end:
        try:
            socket.create_connection(('127.0.0.1', port), 1).close()
            return True
        except OSError:
            time.sleep(0.02)
    return False


def client(port, tls=False):
    if tls:
        return http.client.HTTPSConnection('127.0.0.1', port, timeout=PATIENCE, context=ssl._create_unverified_context())
    return http.client.HTTPConnection('127.0.0.1', port, timeout=PATIENCE)


def ask(connection, target, body=None, method=None, **fields):
    """The answer to a request; it is not whole where the server broke it off."""
    fields = {name.replace('_', '-'): value for name, value in fields.items()}
    connection.request(method or ('GET' if body is None else 'POST'), target, body, fields)
    got = connection.getresponse()
    try:
        return Answer(got.status, got.headers, got.read(), True)
    except (http.client.IncompleteRead, ConnectionError) as fault:
        connection.close()
        return Answer(got.status, got.headers, getattr(fault, 'partial', b''), False)


def ask_once(port, target, **more):
    connection = client(port)
    try:
        return ask(connection, target, **more)
    finally:
        connection.close()


class Backend:
    """A server that answers each request by parts of a body, with pauses between them, in seconds."""

    def __init__(self, parts, pause=0.0, status='200 OK', fields=(), breaks=False):
        self.parts, self.pause, self.status, self.fields, self.breaks = parts, pause, status, fields, breaks
        self.heads = []
        self.listener = socket.create_server(('127.0.0.1', 0))
        self.port = self.listener.getsockname()[1]
        threading.Thread(target=self.accept, daemon=True).start()

    def accept(self):
        while True:
            try:
                peer, _ = self.listener.accept()
            except OSError:
                return
            threading.Thread(target=self.answer, args=(peer,), daemon=True).start()

    def answer(self, peer):
        with peer:
            head = b''
            while b'\r\n\r\n' not in head:
                more = peer.recv(65536)
                if not more:
                    return
                head += more
            self.heads.append(head)
            lines = ['HTTP/1.1 ' + self.status, 'Transfer-Encoding: chunked', 'Connection: close', *self.fields, '', '']
            try:
                peer.sendall('\r\n'.join(lines).encode())
                for part in self.parts_of(head):
                    peer.sendall(b'%x\r\n%s\r\n' % (len(part), part))
                    time.sleep(self.pause)
                if not self.breaks:
                    peer.sendall(b'0\r\n\r\n')
            except OSError:
                pass

    def parts_of(self, head):
        return self.parts

    def close(self):
        self.listener.close()


def arrivals(port, target):
    """The times, from the first byte of the body on, at which bytes of a chunked body came, with these bytes."""
    got = []
    with socket.create_connection(('127.0.0.1', port), PATIENCE) as peer:
        peer.sendall(b'GET %s HTTP/1.1\r\nHost: h\r\nConnection: close\r\n\r\n' % target.encode())
        head = b''
        while b'\r\n\r\n' not in head:
            head += peer.recv(1)
        while True:
            more = peer.recv(65536)
            if not more:
                return got
            got.append((time.time(), more))


def certificate(folder):
    """A certificate of this machine for itself, and its key."""
    names = [os.path.join(folder, name) for name in ('cert.pem', 'key.pem')]
    subprocess.run(['openssl', 'req', '-x509', '-newkey', 'rsa:2048', '-nodes', '-days', '2', '-subj', '/CN=localhost', '-out', names[0], '-keyout',
                    names[1]], check=True, capture_output=True)
    return names


def curl(*words):
    return subprocess.run(['curl', '-sk', '--max-time', str(PATIENCE), *words], capture_output=True)


def asked(*words):
    return subprocess.run(words, capture_output=True, text=True).stdout.strip()


def versions(*packages):
    """Packages with their versions, where the system's package manager tells them."""
    found = asked('dpkg-query', '-W', '-f', '${Package} ${Version}, ', *packages) if shutil.which('dpkg-query') else ''
    return found.rstrip(', ')


def page(length):
    """A page of small letters."""
    return (b'a page of words, and more of them. ' * (length // 35 + 1))[:length]


def lib(name):
    return os.path.join(TOP, 'filters', name + '.mod')


class Faults(list):
    """What was not as it should be, and how much was looked at."""

    def __init__(self):
        super().__init__()
        self.count = 0

    def due(self, what, found, wanted):
        self.count += 1
        if found != wanted:
            self.append('%s: %.200r, due is %.200r' % (what, found, wanted))


def filters_to_play(quoted):
    """What a server plays: names of filters and chains, the words of the directive for each, and its bodies, as lists of requests on one connection. A
    filter stands there as a module, as a text of the language, and as that with the settings of its tests; `quoted` writes a word of the
    configuration, and gives None where it cannot stand there."""
    tests = os.path.join(TOP, 'filters', 'tests')
    for name, path in filters.filters():
        yield name, [path], filters.tests(os.path.join(tests, name + '.test'))[0]
    for name, path in filters.sources():
        told, _, others = filters.tests(os.path.join(tests, name + '.test'))
        yield name + '_text', [path], told
        for number, (settings, requests) in enumerate(others):
            words = [quoted('%s=%s' % (param, value.decode('latin-1'))) for param, value in settings]
            if None not in words:
                yield '%s_set_%d' % (name, number), [path] + words, [requests]
    for name, paths in filters.chains():
        yield name, paths, filters.tests(os.path.join(tests, 'chains', name + '.test'))[0]


# Settings and texts of the language that are refused, with what is told: `{filter}` stands for a file with the text.
REFUSED_FILTERS = [
    ('filter f\non byte b { emit b; }\n', '', '{filter}: line 2, column 19: no `;` is needed'),
    ('filter f\nparam n = 1\non byte b { emit b }\n', 'n=x', '{filter}: cannot set n: a number from 0 to 4294967295 is due'),
    ('filter f\nparam n = 1\non byte b { emit b }\n', 'f.n=4294967296', '{filter}: cannot set f.n: a number from 0 to 4294967295 is due'),
    ('filter f\nparam t = ""\non byte b { emit t }\n', 't=' + 'x' * 256, '{filter}: cannot set t: a text has at most 255 bytes'),
    ('filter f\nparam n = 1\non byte b { emit b }\n', 'm=2', 'cannot set m: no filter here has such a param'),
    ('filter f\nparam n = 1\non byte b { emit b }\n', 'n=2 g.n=2', 'cannot set g.n: no filter here has such a param'),
]


def refused_filters(folder):
    """Files of refused filters, with the words behind each, and what is told."""
    for number, (text, settings, told) in enumerate(REFUSED_FILTERS):
        path = os.path.join(folder, 'refused%d.filter' % number)
        with open(path, 'w') as file:
            file.write(text)
        yield path + ' ' + settings, told.replace('{filter}', path)
