"""Tests the module of nginx: starts servers on loopback, with the filters of filters/, and compares what they answer.

    python3 tests/nginx.py [--library PATH] [--quick]

Wanted are nginx and nginx-dev of the system's package manager, and the library that `make -C nginx` makes, where --library does not name another.
With --quick valgrind is left out.
"""
import argparse
import gzip
import os
import random
import shutil
import signal
import socket
import subprocess
import sys
import tempfile
import threading
import time

import filters
from loopback import (LIBRARY, PATIENCE, TOP, Backend, Faults, arrivals, ask, ask_once, certificate, client, curl, filters_to_play, free_port, lib,
                      page, refused_filters, versions, wait_for)

SOURCE = '/usr/share/nginx/src'
SIZES = (1, 3, 16, 511, 4096, 32768)

BASE = '''load_module {folder}/module.so;
daemon off;
{more}
pid {folder}/pid;
error_log {folder}/log warn;
worker_processes {workers};
{user}
events {{ worker_connections 512; }}
http {{
    access_log off;
    types {{ text/html html shtml; }}
    default_type text/plain;
    client_body_temp_path {folder}/body;
    proxy_temp_path {folder}/proxy;
    fastcgi_temp_path {folder}/fastcgi;
    uwsgi_temp_path {folder}/uwsgi;
    scgi_temp_path {folder}/scgi;
    keepalive_requests 1000000;
    ssl_certificate {folder}/cert.pem;
    ssl_certificate_key {folder}/key.pem;
    server {{
        listen 127.0.0.1:{port};
        listen 127.0.0.1:{tls} ssl http2;
        root {folder}/site;
{text}
    }}
}}
'''


class Build:
    """The module, built in a folder, and pages."""

    def __init__(self, folder, library):
        self.folder = folder
        for name in ('httpd', 'nginx'):
            shutil.copytree(os.path.join(TOP, name), os.path.join(folder, 'work', name), ignore=shutil.ignore_patterns('.libs', 'build', '*.o', '*.l*'))
        work = os.path.join(folder, 'work', 'nginx')
        done = subprocess.run(['make', '-C', work, 'LIBRARY=' + os.path.abspath(library)], capture_output=True, text=True)
        if done.returncode:
            raise SystemExit('nginx: make failed:\n%s' % (done.stdout + done.stderr)[-4000:])
        shutil.copy(os.path.join(work, 'build', 'ngx_http_checked_filter_module.so'), os.path.join(folder, 'module.so'))
        certificate(folder)
        os.makedirs(os.path.join(folder, 'site'))
        for length in (0, 2, 1000, 65536, 1000000):
            self.put('f%d' % length, page(length))
        self.put('zero', page(300000) + b'\0' + page(70000))
        self.put('zero_first', b'ab\0cd')
        self.put('page.shtml', b'a<!--#include virtual="/up/f2" -->b<!--#include virtual="/both/f2" -->c')
        for path, _, _ in os.walk(folder):
            os.chmod(path, 0o755)

    def put(self, name, data):
        with open(os.path.join(self.folder, 'site', name), 'wb') as file:
            file.write(data)

    def config(self, text, workers=1, more=''):
        """A configuration with its ports, of HTTP and of TLS."""
        port, tls = free_port(), free_port()
        path = os.path.join(self.folder, 'conf%d' % port)
        user = 'user nobody nogroup;' if os.getuid() == 0 else ''
        with open(path, 'w') as file:
            file.write(BASE.format(folder=self.folder, port=port, tls=tls, text=text, workers=workers, user=user, more=more))
        return path, port, tls

    def told(self, text):
        """What `-t` says of a configuration: the exit status, and the lines."""
        done = subprocess.run(['nginx', '-p', self.folder, '-c', self.config(text)[0], '-t'], capture_output=True, text=True, timeout=PATIENCE)
        return done.returncode, done.stdout + done.stderr


class Server:
    """An nginx that runs while the `with` does."""

    def __init__(self, build, text, workers=1, before=()):
        self.build = build
        self.path, self.port, self.tls = build.config(text, workers, 'master_process off;' if before else '')
        self.log = os.path.join(build.folder, 'log')
        open(self.log, 'w').close()
        self.process = subprocess.Popen([*before, 'nginx', '-p', build.folder, '-c', self.path], stdout=subprocess.DEVNULL, stderr=subprocess.PIPE,
                                        start_new_session=True)
        if not wait_for(self.port):
            self.process.kill()
            raise SystemExit('nginx does not start: %s' % self.process.stderr.read()[-2000:].decode())

    def __enter__(self):
        return self

    def __exit__(self, *_):
        self.process.send_signal(signal.SIGTERM)
        self.process.wait(PATIENCE)

    def logged(self):
        with open(self.log) as file:
            return file.read()

    def reload(self):
        return subprocess.run(['nginx', '-p', self.build.folder, '-c', self.path, '-s', 'reload'], capture_output=True, text=True)


# ---- the filters, by their tests ----

def quoted(word):
    """A word of the configuration in quotes."""
    escapes = {'\n': '\\n', '\r': '\\r', '\t': '\\t', '"': '\\"', '\\': '\\\\'}
    return '"%s"' % ''.join(escapes.get(letter, letter) for letter in word)


def play_filters(build, faults):
    """Each filter and chain with the first body of each of its tests: of files in buffers of some sizes, and of a backend in parts."""
    chance, bodies = random.Random('nginx'), []
    cutter = Cutter()
    text = 'checked_filter_budget 100000000;\nsendfile off;\n'
    for name, words, told in filters_to_play(quoted):
        text += 'location /%s/ {\n checked_filter %s;\n proxy_pass http://127.0.0.1:%d; proxy_buffering off; proxy_http_version 1.1;\n' % (
            name, ' '.join(words), cutter.port)
        for size in SIZES:
            text += ' location /%s/%d/ { alias %s/site/; output_buffers 2 %d; }\n' % (name, size, build.folder, size)
        text += '}\n'
        bodies += [(name, *requests[0]) for requests in told]
    for number, (_, body, _) in enumerate(bodies):
        build.put('body%d' % number, body)
    with Server(build, text) as server:
        connection = client(server.port)
        for number, (name, body, wanted) in enumerate(bodies):
            for size in SIZES:
                got = ask(connection, '/%s/%d/body%d' % (name, size, number))
                faults.due('%s of %d in buffers of %d' % (name, len(body), size), got.body if got.whole else got, wanted)
            for cut in list(filters.cuts(body, chance))[:8]:
                parts = [body[start:end] for start, end in zip([0] + cut, cut + [len(body)])]
                got = ask(connection, '/%s/%s' % (name, cutter.hold(parts)))
                faults.due('%s in parts %s' % (name, cut), got.body if got.whole else got, wanted)
        faults.due('the log', [line for line in server.logged().split('\n') if 'checked_filter' in line and 'a filter failed' not in line][:1], [])
    cutter.close()


class Cutter(Backend):
    """A backend that sends, at a path, the parts that it was given for it."""

    def __init__(self):
        self.held, self.count = {}, 0
        super().__init__([])

    def hold(self, parts):
        self.count += 1
        self.held[b'%d' % self.count] = [part for part in parts if part]
        return self.count

    def parts_of(self, head):
        return self.held[head.split(b' ')[1].rsplit(b'/', 1)[1]]


# ---- the configuration ----

REFUSED = [
    ('checked_filter;', 'invalid number of arguments'),
    ('checked_filter no_such.mod;', 'no_such.mod: No such file or directory'),
    ('checked_filter {top}/filters;', 'no regular file'),
    ('checked_filter {top}/filters/upper.mod word=x;', 'checked_filter: cannot set word: no filter here has such a param'),
    ('checked_filter {top}/filters/prefix.filter' + ' text=x' * 65 + ';', 'a chain takes at most 64 settings'),
    ('checked_filter text=x;', 'a chain has 1 to 16 modules'),
    ('checked_filter {top}/filters/upper.mod; checked_filter {top}/filters/upper.mod;', 'is duplicate'),
    ('checked_filter' + ' {top}/filters/upper.mod' * 17 + ';', 'a chain has 1 to 16 modules'),
    ('checked_filter_budget 0;', 'checked_filter_budget is at least 1'),
    ('checked_filter_budget x;', 'invalid number'),
    ('checked_filter_limit 1000k;', 'checked_filter_limit at least 1m'),
]


def configurations(build, faults):
    for text, wanted in REFUSED:
        status, told = build.told(text.replace('{top}', TOP))
        faults.due('%r is refused' % text[:60], (status != 0, wanted in told), (True, True))
    for words, wanted in refused_filters(build.folder):
        status, told = build.told('checked_filter %s %s;' % (lib('upper'), words))
        faults.due('%r is refused' % words, (status != 0, 'checked_filter: %s in ' % wanted in told), (True, True))
    folder = os.path.join(TOP, 'tests', 'certificates')
    for name in sorted(os.listdir(folder)):
        if name.endswith('.certify'):
            with open(os.path.join(folder, name), encoding='latin-1') as file:
                answer = file.read().split('\n')[0]
            taken = not answer.startswith(('refused at', 'asm line'))
            status, told = build.told('checked_filter %s.module;' % os.path.join(folder, name[:-8]))
            faults.due('certificates/%s: %s' % (name, told), (status == 0, taken or ': %s in ' % answer in told), (taken, True))


# ---- responses ----

RESPONSES = '''
        location /up/ {{ alias {site}/; checked_filter {lib}/upper.mod; location /up/off/ {{ alias {site}/; checked_filter off; }} }}
        location /both/ {{ alias {site}/; checked_filter {lib}/upper.mod {lib}/suffix.mod; }}
        location /mixed/ {{ alias {site}/;
                            checked_filter {lib}/prefix.filter text=a {lib}/upper.mod "suffix.text= b" {lib}/suffix.filter {lib}/label_text.filter mark=; }}
        location /pass/ {{ alias {site}/; checked_filter {lib}/new.module; }}
        location /gzip/ {{ alias {site}/; checked_filter {lib}/upper.mod; gzip on; gzip_types *; gzip_min_length 0; }}
        location /ssi/ {{ alias {site}/; ssi on; ssi_types *; }}
        location /abort/ {{ alias {site}/; checked_filter {lib}/abort.mod; }}
        location /short/ {{ alias {site}/; checked_filter {lib}/upper.mod; checked_filter_budget 20000; }}
        location /hold/ {{ alias {site}/; checked_filter {lib}/buffer.mod; checked_filter_limit 1m; checked_filter_budget 100000000; }}
        location /big/ {{ alias {site}/; checked_filter {lib}/upper.mod {lib}/rot13.mod; checked_filter_budget 100000000; sendfile off;
                          output_buffers 2 1m; }}
        location /limited/ {{ alias {site}/; checked_filter {lib}/upper.mod; limit_rate 300k; }}
'''


def responses(build, faults):
    slow = Backend([b'a', b'b', b'c', b'd'], pause=0.3)
    fast = Backend([page(20000)] * 10)
    part = Backend([b'part'], status='206 Partial Content', fields=['Content-Range: bytes 1-4/9'])
    broken = Backend([page(20000)] * 10, breaks=True)
    lost = Backend([b'no such page'], status='404 Not Found')
    backends = {'slow': slow, 'fast': fast, 'part': part, 'broken': broken, 'lost': lost}
    text = RESPONSES.format(site=os.path.join(build.folder, 'site'), lib=os.path.join(TOP, 'filters'))
    for buffering in ('on', 'off'):
        for name, backend in backends.items():
            text += 'location /%s_%s/ { proxy_pass http://127.0.0.1:%d/; proxy_http_version 1.1; proxy_buffering %s; checked_filter %s; }\n' % (
                name, buffering, backend.port, buffering, lib('upper'))
    with Server(build, text) as server:
        whole_bodies(server, faults)
        headers(server, faults)
        failures(server, faults)
        for buffering in ('on', 'off'):
            proxied(server, buffering, faults)
        over_tls(server, faults)
        beside_a_long_call(server, faults)
        leaving(server, faults)
    for backend in backends.values():
        backend.close()


def whole_bodies(server, faults):
    suffix = ask_once(server.port, '/both/f0').body
    faults.due('a suffix', len(suffix) > 0, True)
    for length in (0, 2, 1000, 65536, 1000000):
        big = page(length).upper()
        faults.due('upper of %d' % length, ask_once(server.port, '/up/f%d' % length).body, big)
        faults.due('off, of %d' % length, ask_once(server.port, '/up/off/f%d' % length).body, page(length))
        faults.due('both of %d' % length, ask_once(server.port, '/both/f%d' % length).body, big + suffix)
        faults.due('pass of %d' % length, ask_once(server.port, '/pass/f%d' % length).body, page(length))
        faults.due('a mixed chain, of %d' % length, ask_once(server.port, '/mixed/f%d' % length).body, b'A' + big + b' b')
        faults.due('at a rate, of %d' % length, ask_once(server.port, '/limited/f%d' % length).body, big)
        zipped = ask_once(server.port, '/gzip/f%d' % length, Accept_Encoding='gzip')
        body = gzip.decompress(zipped.body) if zipped.fields.get('Content-Encoding') == 'gzip' else zipped.body
        faults.due('gzip of %d' % length, body, big)
    faults.due('includes', ask_once(server.port, '/ssi/page.shtml').body, b'aA bA ' + suffix + b'c')
    faults.due('not found', ask_once(server.port, '/up/no').status, 404)


def headers(server, faults):
    """Lengths, validators, ranges, HEAD and 304."""
    got = ask_once(server.port, '/up/f1000')
    faults.due('a length', got.fields.get('Content-Length'), '1000')
    faults.due('a weak tag', (got.fields.get('ETag') or '').startswith('W/"'), True)
    longer = ask_once(server.port, '/both/f1000')
    faults.due('a length of what came out', longer.fields.get('Content-Length'), str(len(longer.body)))
    for path in ('/up/f1000', '/both/f1000', '/up/f0', '/up/f1000000'):
        head = ask_once(server.port, path, method='HEAD')
        faults.due('HEAD %s' % path, (head.status, head.body, head.fields.get('Content-Length')), (200, b'', None))
    faults.due('304 by the tag', ask_once(server.port, '/up/f1000', If_None_Match=got.fields['ETag']).status, 304)
    faults.due('304 by the time', ask_once(server.port, '/up/f1000', If_Modified_Since=got.fields['Last-Modified']).status, 304)
    ranged = ask_once(server.port, '/up/f1000', Range='bytes=2-5')
    faults.due('no ranges', (ranged.status, len(ranged.body)), (200, 1000))
    connection = client(server.port)
    for k in range(50):
        faults.due('kept alive %d' % k, ask(connection, '/up/f%d' % (2, 1000, 65536)[k % 3]).status, 200)
        faults.due('HEAD kept alive', ask(connection, '/up/f1000', method='HEAD').status, 200)
    connection.close()


def failures(server, faults):
    """500 before the header was sent, a broken response afterwards, and the line of the log for each."""
    got = ask_once(server.port, '/abort/zero_first')
    faults.due('fails before', (got.status, got.whole, b'ab' in got.body[:2]), (500, True, False))
    got = ask_once(server.port, '/abort/zero')
    faults.due('fails later', (got.status, got.whole, b'\0' in got.body), (200, False, False))
    got = ask_once(server.port, '/short/f65536')
    faults.due('the budget', (got.status, got.whole), (500, True))
    got = ask_once(server.port, '/hold/f1000000')
    faults.due('the limit', (got.status, got.whole), (500, True))
    faults.due('the limit of others', ask_once(server.port, '/hold/f65536').body, page(65536))
    for wanted in ('abort.mod: /abort/zero: a filter failed', 'upper.mod: /short/f65536: the budget of instructions was met',
                   'buffer.mod: /hold/f1000000: the limit of memory was met'):
        faults.due('the log: %s' % wanted, wanted in server.logged(), True)


def proxied(server, buffering, faults):
    got = arrivals(server.port, '/slow_%s/' % buffering)
    faults.due('bit by bit, buffering %s' % buffering, len(got) >= 4 and got[-1][0] - got[0][0] > 0.5, True)
    faults.due('bit by bit, in capitals', all(letter in b''.join(more for _, more in got) for letter in (b'A', b'B', b'C', b'D')), True)
    faults.due('fast, buffering %s' % buffering, ask_once(server.port, '/fast_%s/' % buffering).body, page(20000).upper() * 10)
    faults.due('a part', ask_once(server.port, '/part_%s/' % buffering).status, 500)
    faults.due('not found', (lambda got: (got.status, got.body))(ask_once(server.port, '/lost_%s/' % buffering)), (404, b'NO SUCH PAGE'))
    faults.due('broken off', ask_once(server.port, '/broken_%s/' % buffering).whole, False)


def over_tls(server, faults):
    for words in (['--http1.1'], ['--http2']):
        for length in (0, 2, 65536, 1000000):
            got = curl(*words, 'https://127.0.0.1:%d/up/f%d' % (server.tls, length))
            faults.due('%s of %d' % (words, length), (got.returncode, got.stdout), (0, page(length).upper()))
    got = curl('--http2', '-o', '/dev/null', '-w', '%{http_version} %{http_code}', 'https://127.0.0.1:%d/short/f65536' % server.tls)
    faults.due('500 over HTTP/2', got.stdout, b'2 500')
    got = curl('--http2', '-o', '/dev/null', 'https://127.0.0.1:%d/abort/zero' % server.tls)
    faults.due('broken off over HTTP/2', got.returncode != 0, True)
    several = ['https://127.0.0.1:%d/%s/f%d' % (server.tls, path, length) for path in ('up', 'pass', 'both') for length in (2, 65536)] * 6
    got = curl('--http2', '-Z', '-w', '%{http_code} ', *[word for url in several for word in (url, '-o', '/dev/null')])
    faults.due('many over HTTP/2', got.stdout, b'200 ' * len(several))


def beside_a_long_call(server, faults):
    """While calls take long, others are answered between their slices."""
    quick, over = [], []

    def long_ones():
        for _ in range(3):
            over.append(ask_once(server.port, '/big/f1000000').status)
    threads = [threading.Thread(target=long_ones) for _ in range(8)]
    for thread in threads:
        thread.start()
    connection = client(server.port)
    while any(thread.is_alive() for thread in threads):
        start = time.time()
        ask(connection, '/pass/f2')
        quick.append(time.time() - start)
    connection.close()
    faults.due('long ones', over, [200] * 24)
    faults.due('others beside them: the slowest of %d took %.3f s' % (len(quick), max(quick)), max(quick) < 0.5, True)


def leaving(server, faults):
    for path in ('/up/f1000000', '/big/f1000000', '/slow_on/', '/limited/f1000000'):
        for _ in range(20):
            with socket.create_connection(('127.0.0.1', server.port)) as peer:
                peer.sendall(b'GET %s HTTP/1.1\r\nHost: h\r\n\r\n' % path.encode())
                if path != '/slow_on/':
                    peer.recv(100)
    time.sleep(0.3)
    faults.due('after clients that left', ask_once(server.port, '/up/f1000000').body, page(1000000).upper())
    faults.due('no crash', [line for line in server.logged().split('\n') if 'exited on signal' in line or '[alert]' in line], [])


# ---- under load ----

def under_load(build, faults, seconds=4.0):
    """64 clients with filters by turns, some of which leave; a reload beside them, and one that is refused."""
    text = RESPONSES.format(site=os.path.join(build.folder, 'site'), lib=os.path.join(TOP, 'filters'))
    with Server(build, text, workers=2) as server:
        over, asked = [], [0] * 64

        def go(seed):
            chance = random.Random(seed)
            while not over:
                connection = client(server.port)
                try:
                    for _ in range(chance.randrange(1, 20)):
                        length = chance.choice((0, 2, 1000, 65536))
                        name = chance.choice(('up', 'pass', 'abort', 'limited', 'leave'))
                        if name == 'leave':
                            connection.request('GET', '/up/f1000000')
                            connection.sock.recv(chance.randrange(1, 3000))
                            break
                        got = ask(connection, '/%s/f%d' % (name, length))
                        wanted = page(length) if name in ('pass', 'abort') else page(length).upper()
                        asked[seed] += 1
                        if got.body != wanted:
                            faults.append('under load: %s of %d: %.80r' % (name, length, got))
                except ConnectionError:
                    pass  # a reload may close a connection that is idle; a crash is in the log
                connection.close()
        threads = [threading.Thread(target=go, args=(k,)) for k in range(64)]
        for thread in threads:
            thread.start()
        time.sleep(seconds / 4)
        faults.due('a reload', server.reload().returncode, 0)
        time.sleep(seconds / 2)
        with open(server.path) as file:
            good = file.read()
        with open(server.path, 'w') as file:
            file.write(good.replace('location /up/ {', 'location /bad/ { checked_filter %s/tests/certificates/f7_broken.module; } location /up/ {' % TOP))
        refused = server.reload()
        faults.due('a reload that is refused', (refused.returncode != 0, 'refused at 4: F7' in refused.stderr), (True, True))
        server.process.send_signal(signal.SIGHUP)
        time.sleep(seconds / 4)
        over.append(True)
        for thread in threads:
            thread.join()
        faults.count += sum(asked)
        faults.due('after the refused reload', ask_once(server.port, '/up/f2').body, b'A ')
        faults.due('no crash', [line for line in server.logged().split('\n') if 'exited on signal' in line or '[alert]' in line], [])


def under_valgrind(build, faults):
    """1,000 requests, with failures, long calls and clients that leave: no error, and nothing lost of the module's."""
    log = os.path.join(build.folder, 'valgrind')
    text = RESPONSES.format(site=os.path.join(build.folder, 'site'), lib=os.path.join(TOP, 'filters'))
    words = ['valgrind', '--vgdb=no', '--leak-check=full', '--show-leak-kinds=definite', '--log-file=' + log]
    with Server(build, text, before=words) as server:
        for k in range(250):
            length, connection = (0, 2, 1000, 65536)[k % 4], client(server.port)
            faults.due('upper', ask(connection, '/up/f%d' % length).body, page(length).upper())
            faults.due('pass', ask(connection, '/pass/f%d' % length).body, page(length))
            faults.due('fails', ask(connection, '/abort/zero_first').status, 500)
            connection.close()
            with socket.create_connection(('127.0.0.1', server.port)) as peer:
                peer.sendall(b'GET /%s/f1000000 HTTP/1.1\r\nHost: h\r\n\r\n' % (b'up', b'limited')[k % 2])
                peer.recv(100)
    with open(log, errors='replace') as file:
        blocks = file.read().split('== \n')
    bad = [block for block in blocks if any(name in block for name in ('checked_', 'cidawru', 'rattle_')) and ('at 0x' in block or 'by 0x' in block)]
    faults.due('valgrind', bad[:1], [])


def lacks():
    missing = [name for name in ('nginx', 'curl', 'openssl') if not shutil.which(name)]
    return missing + ([] if os.path.exists(os.path.join(SOURCE, 'configure')) else ['nginx-dev'])


def check(library=LIBRARY, quick=False):
    """Runs the tests; gives how much was not as it should be."""
    missing = lacks()
    if missing or not os.path.exists(library):
        print('nginx: not tried: there is no %s' % (', '.join(missing) if missing else os.path.relpath(library, TOP)))
        return 0
    faults = Faults()
    with tempfile.TemporaryDirectory() as folder:
        build = Build(folder, library)
        configurations(build, faults)
        play_filters(build, faults)
        responses(build, faults)
        under_load(build, faults)
        if not quick and shutil.which('valgrind'):
            under_valgrind(build, faults)
    for fault in faults[:20]:
        print('nginx: %s' % fault)
    print('nginx (%s): %d looked at, %d not as they should be' % (versions('nginx', 'nginx-dev', 'curl'), faults.count, len(faults)))
    return len(faults)


if __name__ == '__main__':
    parser = argparse.ArgumentParser(description=__doc__, formatter_class=argparse.RawDescriptionHelpFormatter)
    parser.add_argument('--library', default=LIBRARY)
    parser.add_argument('--quick', action='store_true')
    options = parser.parse_args()
    sys.exit(int(check(options.library, options.quick) > 0))
