"""Tests the module of Apache httpd: starts servers on loopback, with the filters of filters/, and compares what they answer.

    python3 tests/httpd.py [--library PATH] [--quick]

Wanted are apache2 and apache2-dev of the system's package manager, and the library that `make -C httpd` makes, where --library does not name
another. With --quick valgrind is left out.
"""
import argparse
import glob
import gzip
import os
import random
import re
import shutil
import socket
import subprocess
import sys
import tempfile
import threading
import time

import filters
from httpd_server import HERE, Build, Server, lacks
from loopback import (LIBRARY, TOP, Backend, Faults, arrivals, ask, ask_once, certificate, client, curl, filters_to_play, free_port, lib, page,
                      refused_filters, versions)

KINDS = 'htipf'


def checked(name, *words):
    return 'CheckedFilter %s %s\n' % (name, ' '.join(words))


def quoted(word):
    """A word of the configuration in quotes; a byte that ends a line cannot stand there."""
    return None if re.search(r'[^ -~]', word) else '"%s"' % re.sub(r'(["\\])', r'\\\1', word)


# ---- the filters, by their tests ----

def plan(chance, body, cut):
    """A query for the handler of the tests: kinds of pieces, FLUSH between them, brigades, and data behind the EOS."""
    words = []
    for start, end in zip([0] + cut, cut + [len(body)]):
        words.append('%s%d' % (chance.choice(KINDS), end - start))
        words += [['F'], ['b'], ['b', 'b'], [], [], []][chance.randrange(6)]
    return ','.join(words + chance.choice([['E'], ['b', 'E'], ['E', 't4'], ['E', 'b', 't4']]))


def play_filters(build, mpm, faults):
    """Each filter and chain with each body of its tests, in many cuts."""
    chance, played = random.Random('httpd'), list(filters_to_play(quoted))
    text = 'CheckedFilterScope connection\nCheckedFilterBudget 100000000\n'
    for name, words, _ in played:
        text += checked(name, *words) + '<Location "/%s">\nSetHandler cuts\nSetOutputFilter %s\n</Location>\n' % (name, name)
    with Server(build, mpm, text) as server:
        for name, _, bodies in played:
            for requests in bodies:
                play_body(server, chance, name, requests, faults)
    logged = [line for line in server.logged().split('\n') if 'checked_filter' in line and 'a filter failed' not in line]
    faults.due('%s: the log' % mpm, logged[:1], [])


def play_body(server, chance, name, requests, faults):
    for cut in filters.cuts(requests[0][0], chance):
        connection = client(server.port)
        for body, wanted in requests:
            own = [at for at in cut if at < len(body)]
            query = plan(chance, body, own)
            try:
                got = ask(connection, '/%s?%s' % (name, query), body=body + b'late')
                faults.due('%s %s?%s' % (server.mpm, name, query), got.body if got.whole else got, wanted)
            except OSError as fault:
                faults.append('%s %s?%s: %s' % (server.mpm, name, query, fault))
        connection.close()


# ---- the configuration ----

REFUSED = [
    ('CheckedFilter X', 'a name, and the files of 1 to 16 modules or filters'),
    ('CheckedFilter X no_such.mod', 'no_such.mod: No such file or directory'),
    ('CheckedFilter X {lib}/filters', 'no regular file'),
    ('CheckedFilter X {lib}/filters/upper.mod word=x', 'CheckedFilter X: cannot set word: no filter here has such a param'),
    ('CheckedFilter X {lib}/filters/prefix.filter' + ' text=x' * 62, 'at most 62 files and settings'),
    ('CheckedFilter X text=x', 'a chain has 1 to 16 modules'),
    ('CheckedFilter DEFLATE {lib}/filters/upper.mod', 'there is a filter of this name'),
    ('CheckedFilter X {lib}/filters/upper.mod\nCheckedFilter x {lib}/filters/upper.mod', 'there is a filter of this name'),
    ('CheckedFilter X' + ' {lib}/filters/upper.mod' * 17, 'a chain has 1 to 16 modules'),
    ('CheckedFilterBudget 0', 'a number of instructions'),
    ('CheckedFilterBudget -1', 'a number of instructions'),
    ('CheckedFilterBudget 1e9', 'a number of instructions'),
    ('CheckedFilterBudget 99999999999999999999', 'a number of instructions'),
    ('CheckedFilterLimit 1048575', 'a number of bytes, at least 1048576'),
    ('CheckedFilterLimit 64M', 'a number of bytes, at least 1048576'),
    ('CheckedFilterScope page', 'request or connection'),
    ('<VirtualHost *:1>\nCheckedFilter X {lib}/filters/upper.mod\n</VirtualHost>', 'cannot occur within <VirtualHost> section'),
]


def configurations(build, faults):
    for text, wanted in REFUSED:
        status, told = build.told(text.replace('{lib}', TOP) + '\n')
        faults.due('%r is refused' % text[:60], (status != 0, wanted in told), (True, True))
    for words, wanted in refused_filters(build.folder):
        status, told = build.told(checked('X', lib('upper'), words))
        faults.due('%r is refused' % words, (status != 0, 'CheckedFilter X: %s\n' % wanted in told), (True, True))
    real = sorted(glob.glob(os.path.join(TOP, 'tests', 'language', 'real', '*.filter')))
    most = checked('X', *[lib('upper')] * 15, lib('prefix')[:-len('mod')] + 'filter', *['text=x'] * 46)
    for text in (checked('X', *[lib('upper')] * 16), most, ''.join(checked('X%d' % k, path) for k, path in enumerate(real))):
        status, told = build.told(text)
        faults.due('%r' % text[:60], (status, told), (0, 'Syntax OK\n'))
    folder = os.path.join(TOP, 'tests', 'certificates')
    for name in sorted(os.listdir(folder)):
        if name.endswith(('.certify', '.check')):
            certificate_told(build, folder, name, faults)


def certificate_told(build, folder, name, faults):
    """A module, and a certificate where the answer is of `check`: -t says what the program answers."""
    stem = name.rsplit('.', 1)[0]
    copy = os.path.join(build.folder, 'copy.mod')
    with open(os.path.join(folder, name), encoding='latin-1') as file:
        answer = file.read().split('\n')[0]
    shutil.copy(os.path.join(folder, stem.split('.')[0] + '.module'), copy)
    if name.endswith('.check'):
        shutil.copy(os.path.join(folder, stem + '.cert'), copy + '.cert')
    status, told = build.told(checked('X', copy))
    taken = not answer.startswith(('refused at', 'asm line', 'cert line'))
    faults.due('certificates/%s: %s' % (name, told), (status == 0, taken or ': %s\n' % answer in told), (taken, True))
    for path in (copy, copy + '.cert'):
        if os.path.exists(path):
            os.remove(path)


# ---- responses ----

RESPONSES = '''
CheckedFilter UPPER {lib}/upper.mod
CheckedFilter SUFFIX {lib}/suffix.mod
CheckedFilter ABORT {lib}/abort.mod
CheckedFilter PASS {lib}/new.module
CheckedFilter BOTH {lib}/upper.mod {lib}/suffix.mod
CheckedFilter MIXED {lib}/prefix.filter text=a {lib}/upper.mod "suffix.text= b" {lib}/suffix.filter {lib}/label_text.filter mark=
CheckedFilterBudget 20000
CheckedFilter SHORT {lib}/upper.mod
CheckedFilterBudget 100000000
CheckedFilterLimit 1048576
CheckedFilter HOLD {lib}/buffer.mod
AddOutputFilter INCLUDES .shtml
AddType text/html .shtml
<Location />
Options +Includes
</Location>
Alias /up {site}
Alias /both {site}
Alias /mixed {site}
Alias /type {site}
Alias /smart {site}
Alias /gzip {site}
Alias /abort {site}
Alias /short {site}
Alias /hold {site}
Alias /include {site}
Alias /pass {site}
<Location /up>
SetOutputFilter UPPER
</Location>
<Location /both>
SetOutputFilter BOTH
</Location>
<Location /mixed>
SetOutputFilter MIXED
</Location>
<Location /include>
SetOutputFilter SUFFIX;UPPER
</Location>
<Location /type>
AddOutputFilterByType UPPER text/html
</Location>
FilterDeclare SMART
FilterProvider SMART UPPER "%{CONTENT_TYPE} =~ m#^text/html#"
<Location /smart>
FilterChain SMART
</Location>
ScriptAlias /script {script}
<Location /script>
SetOutputFilter UPPER
</Location>
<Location /gzip>
SetOutputFilter UPPER;DEFLATE
</Location>
<Location /abort>
SetOutputFilter ABORT
</Location>
<Location /short>
SetOutputFilter SHORT
</Location>
<Location /hold>
SetOutputFilter HOLD
</Location>
<Location /pass>
SetOutputFilter PASS
</Location>
<Location /cuts>
SetHandler cuts
SetOutputFilter UPPER
</Location>
<Location /cuts/abort>
SetOutputFilter ABORT
</Location>
'''


def with_proxies(text, backends):
    """Locations whose content comes from backends."""
    for path, backend, name in backends:
        text += 'ProxyPass "/%s" "http://127.0.0.1:%d/" disablereuse=on\n<Location "/%s">\nSetOutputFilter %s\n</Location>\n' % (
            path, backend.port, path, name)
    return text


def responses_text(build):
    text = RESPONSES.replace('{lib}', os.path.join(TOP, 'filters')).replace('{site}', os.path.join(build.folder, 'site'))
    return text.replace('{script}', os.path.join(build.folder, 'script'))


def responses(build, mpm, faults):
    slow = Backend([b'a', b'b', b'c', b'd'], pause=0.3)
    fast = Backend([page(20000)] * 10)
    part = Backend([b'part'], status='206 Partial Content', fields=['Content-Range: bytes 1-4/9'])
    broken = Backend([page(20000)] * 10, breaks=True)
    none = Backend([], status='304 Not Modified', fields=['ETag: "x"'])
    zero = Backend([page(70000)] * 3 + [b'\0'] * 3 + [page(70000)] * 3, pause=0.05)
    backends = [('slow', slow, 'UPPER'), ('fast', fast, 'UPPER'), ('part', part, 'UPPER'), ('broken', broken, 'UPPER'), ('none', none, 'SUFFIX'),
                ('zero', zero, 'ABORT')]
    names = certificate(build.folder)
    tls = free_port()
    script = 'cgi' if mpm == 'prefork' else 'cgid'
    text = with_proxies(responses_text(build), backends) + 'LoadModule %s_module %s/mod_%s.so\n' % (script, build.modules, script)
    text += 'Protocols h2 h2c http/1.1\nListen 127.0.0.1:%d\n' % tls
    text += '<VirtualHost 127.0.0.1:%d>\nSSLEngine on\nSSLCertificateFile %s\nSSLCertificateKeyFile %s\n</VirtualHost>\n' % (tls, *names)
    with Server(build, mpm, text) as server:
        whole_bodies(server, faults)
        headers(server, faults)
        failures(server, faults)
        proxied(server, backends, faults)
        over_tls(server, tls, faults)
        if mpm != 'prefork':  # mod_http2 wants threads
            over_http2(server, tls, faults)
        leaving(server, faults)
    for _, backend, _ in backends:
        backend.close()


def whole_bodies(server, faults):
    """What comes through, of files, includes, other filters, and two of them."""
    suffix = ask_once(server.port, '/both/f0').body
    faults.due('a suffix', len(suffix) > 0, True)
    for length in (0, 2, 1000, 65536, 1000000):
        big = page(length).upper()
        faults.due('upper of %d' % length, ask_once(server.port, '/up/f%d' % length).body, big)
        faults.due('both of %d' % length, ask_once(server.port, '/both/f%d' % length).body, big + suffix)
        faults.due('pass of %d' % length, ask_once(server.port, '/pass/f%d' % length).body, page(length))
        faults.due('a mixed chain, of %d' % length, ask_once(server.port, '/mixed/f%d' % length).body, b'A' + big + b' b')
        zipped = ask_once(server.port, '/gzip/f%d' % length, Accept_Encoding='gzip')
        body = gzip.decompress(zipped.body) if zipped.fields.get('Content-Encoding') == 'gzip' else zipped.body
        faults.due('gzip of %d' % length, body, big)
    faults.due('by type', ask_once(server.port, '/type/page.shtml').body[:1], b'A')
    faults.due('not of this type', ask_once(server.port, '/type/f2').body, b'a ')
    faults.due('by an expression', ask_once(server.port, '/smart/page.shtml').body[:1], b'A')
    faults.due('not by the expression', ask_once(server.port, '/smart/f2').body, b'a ')
    included = ask_once(server.port, '/page.shtml').body
    faults.due('includes', included, b'aA b' + b'A ' + suffix.upper() + suffix + b'c')
    faults.due('not found', ask_once(server.port, '/up/no').status, 404)


def headers(server, faults):
    """Lengths, validators, ranges, HEAD and 304."""
    got = ask_once(server.port, '/up/f1000')
    faults.due('a length', got.fields.get('Content-Length'), '1000')
    faults.due('a weak tag', (got.fields.get('ETag') or '').startswith('W/"'), True)
    longer = ask_once(server.port, '/both/f1000')
    faults.due('a length of what came out', longer.fields.get('Content-Length'), str(len(longer.body)))
    faults.due('no length of a long one', ask_once(server.port, '/up/f1000000').fields.get('Content-Length'), None)
    for path in ('/up/f1000', '/both/f1000', '/up/f1000000', '/gzip/f1000000'):
        head, whole = ask_once(server.port, path, method='HEAD'), ask_once(server.port, path)
        faults.due('HEAD %s' % path, (head.status, head.body, head.fields.get('Content-Length')), (200, b'', whole.fields.get('Content-Length')))
    faults.due('304 by the tag', ask_once(server.port, '/up/f1000', If_None_Match=got.fields['ETag']).status, 304)
    faults.due('304 by the time', ask_once(server.port, '/up/f1000', If_Modified_Since=got.fields['Last-Modified']).status, 304)
    ranged = ask_once(server.port, '/up/f1000', Range='bytes=2-5')
    faults.due('a range of what came out', (ranged.status, ranged.body), (206, page(1000).upper()[2:6]))
    ranged = ask_once(server.port, '/up/f1000', Range='bytes=2-5', If_Range=got.fields['ETag'])
    faults.due('no range by a weak tag', (ranged.status, len(ranged.body)), (200, 1000))
    connection = client(server.port)
    for k in range(50):
        faults.due('kept alive %d' % k, ask(connection, '/up/f%d' % (2, 1000)[k % 2]).status, 200)
        head = ask(connection, '/up/f1000', method='HEAD')
        faults.due('HEAD kept alive', head.status, 200)
    connection.close()


def failures(server, faults):
    """500 before the header was sent, a broken response afterwards, and the line of the log for each."""
    got = ask_once(server.port, '/cuts/abort?h5,b,h5,E', body=b'hello\0late')
    faults.due('fails before', (got.status, got.whole, 'hello' in got.body.decode('latin-1')), (500, True, False))
    got = ask_once(server.port, '/cuts/abort?h5,F,h5,E', body=b'hello\0late')
    faults.due('fails after a FLUSH', (got.status, got.whole, got.body), (200, False, b'hello'))
    got = ask_once(server.port, '/short/f65536')
    faults.due('the budget', (got.status, got.whole), (500, True))
    got = ask_once(server.port, '/hold/f1000000')
    faults.due('the limit', (got.status, got.whole), (500, True))
    faults.due('the limit of others', ask_once(server.port, '/hold/f65536').body, page(65536))
    connection = client(server.port)
    for k in range(20):
        faults.due('after a failure %d' % k, ask(connection, '/short/f65536').status, 500)
        faults.due('within the budget', ask(connection, '/short/f1000').status, 200)
    connection.close()
    for wanted in ('CheckedFilter ABORT: POST /cuts/abort: a filter failed', 'CheckedFilter SHORT: GET /short/f65536: the budget of instructions was met',
                   'CheckedFilter HOLD: GET /hold/f1000000: the limit of memory was met'):
        faults.due('the log: %s' % wanted, wanted in server.logged(), True)


def proxied(server, backends, faults):
    """What backends send, bit by bit and fast, a part, none, and broken off."""
    fast = backends[1][1]
    got = arrivals(server.port, '/slow')
    faults.due('bit by bit', len(got) >= 4 and got[-1][0] - got[0][0] > 0.5, True)
    faults.due('bit by bit, in capitals', all(letter in b''.join(more for _, more in got) for letter in (b'A', b'B', b'C', b'D')), True)
    faults.due('fast', ask_once(server.port, '/fast').body, page(20000).upper() * 10)
    ask_once(server.port, '/fast', Range='bytes=1-2')
    faults.due('no range for the backend', b'range' in fast.heads[-1].lower(), False)
    faults.due('a part', ask_once(server.port, '/part').status, 500)
    got = ask_once(server.port, '/broken')
    faults.due('broken off', got.whole, False)
    got = ask_once(server.port, '/none', If_None_Match='"x"')
    faults.due('304 of a backend', (got.status, got.body), (304, b''))
    got = ask_once(server.port, '/zero')
    faults.due('fails in the middle', (got.status, got.whole, b'\0' in got.body), (200, False, False))
    got = arrivals(server.port, '/script')
    text = b''.join(more for _, more in got)
    faults.due('a script, bit by bit', (got[-1][0] - got[0][0] > 0.4, b'A' in text, b'B' in text), (True, True, True))


def over_tls(server, tls, faults):
    """TLS, by curl."""
    for length in (0, 2, 65536, 1000000):
        got = curl('--http1.1', 'https://127.0.0.1:%d/up/f%d' % (tls, length))
        faults.due('over TLS', (got.returncode, got.stdout), (0, page(length).upper()))


def over_http2(server, tls, faults):
    """HTTP/2 with TLS and without, by curl; many streams at once on one connection."""
    for words in (['--http2', 'https://127.0.0.1:%d/up/f65536' % tls], ['--http2-prior-knowledge', 'http://127.0.0.1:%d/up/f65536' % server.port]):
        got = curl(*words)
        faults.due(' '.join(words), (got.returncode, got.stdout), (0, page(65536).upper()))
    got = curl('--http2', '-o', '/dev/null', '-w', '%{http_version} %{http_code}', 'https://127.0.0.1:%d/short/f65536' % tls)
    faults.due('500 over HTTP/2', got.stdout, b'2 500')
    got = curl('--http2', '-o', '/dev/null', '-w', '%{http_code}', 'https://127.0.0.1:%d/zero' % tls)
    faults.due('broken off over HTTP/2', got.returncode != 0, True)
    several = ['https://127.0.0.1:%d/%s/f%d' % (tls, path, length) for path in ('up', 'pass', 'both') for length in (2, 65536)] * 6
    got = curl('--http2', '-Z', '-w', '%{http_code} ', *[word for url in several for word in (url, '-o', '/dev/null')])
    faults.due('many over HTTP/2', got.stdout, b'200 ' * len(several))


def leaving(server, faults):
    """Clients that leave in the middle leave the server as it was."""
    for _ in range(40):
        with socket.create_connection(('127.0.0.1', server.port)) as peer:
            peer.sendall(b'GET /up/f1000000 HTTP/1.1\r\nHost: h\r\n\r\n')
            peer.recv(1000)
    for _ in range(20):
        with socket.create_connection(('127.0.0.1', server.port)) as peer:
            peer.sendall(b'GET /slow HTTP/1.1\r\nHost: h\r\n\r\n')
    time.sleep(0.5)
    faults.due('after clients that left', ask_once(server.port, '/up/f1000000').body, page(1000000).upper())
    faults.due('no crash', [line for line in server.logged().split('\n') if 'exit signal' in line], [])


# ---- under load ----

LOAD = '''
CheckedFilter UPPER {lib}/upper.mod
CheckedFilter PASS {lib}/new.module
CheckedFilter SUFFIX {lib}/suffix.mod
CheckedFilter ABORT {lib}/abort.mod
CheckedFilterScope connection
CheckedFilter CACHE {lib}/cache.mod
Alias /up {site}
Alias /pass {site}
Alias /cache {site}
<Location /up>
SetOutputFilter UPPER;PASS
</Location>
<Location /pass>
SetOutputFilter PASS;SUFFIX;PASS
</Location>
<Location /cache>
SetOutputFilter CACHE
</Location>
<Location /cuts>
SetHandler cuts
SetOutputFilter ABORT
</Location>
'''


class Load:
    """Clients at once, each asking for pages by turns; some leave in the middle, and in some the filter fails."""

    def __init__(self, port, count, faults):
        self.port, self.over, self.asked, self.faults = port, False, 0, faults
        self.threads = [threading.Thread(target=self.go, args=(k,)) for k in range(count)]
        for thread in self.threads:
            thread.start()

    def go(self, seed):
        chance = random.Random(seed)
        while not self.over:
            connection = client(self.port)
            try:
                self.ask_some(connection, chance)
            except ConnectionError:
                pass  # a restart may close a connection that is idle; a crash is in the log
            except Exception as fault:
                self.faults.append('under load: %r' % fault)
            connection.close()

    def ask_some(self, connection, chance):
        first = sock = None
        for _ in range(chance.randrange(1, 20)):
            length = chance.choice((0, 2, 1000, 65536))
            what = chance.randrange(5)
            if what == 0:
                self.due('upper', ask(connection, '/up/f%d' % length).body, page(length).upper())
            elif what == 1:
                self.due('suffix', ask(connection, '/pass/f%d' % length).body.startswith(page(length)), True)
            elif what == 2:
                if connection.sock is not sock or sock is None:  # a 500 closes a connection, and the next request opens another
                    first = None
                body = ask(connection, '/cache/f%d' % length).body
                first, sock = body if first is None else first, connection.sock
                self.due('the first of this connection', body, first)
            elif what == 3:
                self.due('fails', ask(connection, '/cuts?h5,b,h5,E', body=b'hello\0late').status, 500)
            else:
                connection.request('GET', '/up/f1000000')
                connection.sock.recv(chance.randrange(1, 3000))
                return

    def due(self, what, found, wanted):
        self.asked += 1
        if found != wanted and not self.over:
            self.faults.append('under load: %s: %.100r, due is %.100r' % (what, found, wanted))

    def end(self):
        self.over = True
        for thread in self.threads:
            thread.join()
        self.faults.count += self.asked


def load_text(build):
    return LOAD.replace('{lib}', os.path.join(TOP, 'filters')).replace('{site}', os.path.join(build.folder, 'site'))


def under_load(build, mpm, faults, seconds=4.0):
    """64 clients, and restarts beside them: with a good chain, and with one that is refused, which leaves the server as it is."""
    with Server(build, mpm, load_text(build)) as server:
        load = Load(server.port, 64, faults)
        time.sleep(seconds / 4)
        faults.due('a restart', server.control('graceful').returncode, 0)
        time.sleep(seconds / 2)
        with open(server.path) as file:
            good = file.read()
        with open(server.path, 'w') as file:
            file.write(good + checked('BAD', os.path.join(TOP, 'tests', 'certificates', 'f7_broken.module')))
        refused = server.control('graceful')
        faults.due('a restart that is refused', (refused.returncode != 0, 'refused at 4: F7' in refused.stdout + refused.stderr), (True, True))
        time.sleep(seconds / 4)
        load.end()
        faults.due('after the refused restart', ask_once(server.port, '/up/f2').body, b'A ')
        faults.due('no crash', [line for line in server.logged().split('\n') if 'exit signal' in line], [])


# ---- memory and threads ----

def under_valgrind(build, faults):
    """1,000 requests, with failures and clients that leave: no error, and nothing lost of the module's."""
    log = os.path.join(build.folder, 'valgrind')
    words = ['valgrind', '--vgdb=no', '--leak-check=full', '--show-leak-kinds=definite', '--log-file=' + log, '--error-exitcode=9']
    with Server(build, 'prefork', load_text(build), before=words) as server:
        chance, load = random.Random('valgrind'), Load(server.port, 0, faults)
        while load.asked < 1000:
            connection = client(server.port)
            load.ask_some(connection, chance)
            connection.close()
    load.end()
    judge(log, faults, load.asked)


def sessions(build, library, faults):
    """Threads that take sessions from one list: no race, no error of memory, and nothing lost."""
    program = os.path.join(build.folder, 'sessions')
    top = os.path.join(TOP, 'httpd')
    build.run('cc', '-g', '-O1', '-Wall', '-Wextra', '-I' + top, os.path.join(HERE, 'sessions.c'), os.path.join(top, 'checked_session.c'),
              os.path.abspath(library), '-lpthread', '-o', program)
    for tool in ([], ['--tool=helgrind'], ['--tool=drd'], ['--leak-check=full', '--show-leak-kinds=all', '--errors-for-leak-kinds=all']):
        before = ['valgrind', '-q', '--error-exitcode=9', *tool] if tool else []
        done = subprocess.run([*before, program, lib('upper'), '8', '25' if tool else '2000'], capture_output=True, text=True)
        faults.due('sessions %s' % ' '.join(tool), (done.returncode, done.stderr), (0, ''))


def each_export(build, library, faults):
    """The program that calls each function of the library, and refuses it memory: it answers as it should, and valgrind tells nothing."""
    source, program = os.path.join(TOP, 'httpd', 'test_lib.c'), os.path.join(build.folder, 'test_lib')
    if os.path.exists(source):
        build.run('cc', '-g', '-O1', '-I' + os.path.join(TOP, 'httpd'), source, os.path.abspath(library), '-o', program)
        done = subprocess.run(['valgrind', '-q', '--error-exitcode=9', '--leak-check=full', program, os.path.join(TOP, 'filters')], capture_output=True,
                              text=True)
        faults.due('httpd/test_lib.c: %s' % done.stdout[-300:], (done.returncode, done.stderr), (0, ''))


def judge(log, faults, count):
    """What a tool says of the module: reports that name its files."""
    with open(log, errors='replace') as file:
        blocks = file.read().split('== \n')
    bad = [block for block in blocks if any(name in block for name in ('checked_', 'cidawru', 'rattle_')) and ('at 0x' in block or 'by 0x' in block)]
    faults.due('%s of %d requests' % (os.path.basename(log), count), bad[:1], [])


def check(library=LIBRARY, quick=False):
    """Runs the tests; gives how much was not as it should be."""
    missing = lacks()
    if missing or not os.path.exists(library):
        print('httpd: not tried: there is no %s' % (', '.join(missing) if missing else os.path.relpath(library, TOP)))
        return 0
    faults = Faults()
    with tempfile.TemporaryDirectory() as folder:
        build = Build(folder, library)
        configurations(build, faults)
        for mpm in ('event', 'prefork'):
            play_filters(build, mpm, faults)
            responses(build, mpm, faults)
            under_load(build, mpm, faults)
        if not quick and shutil.which('valgrind'):
            each_export(build, library, faults)
            sessions(build, library, faults)
            under_valgrind(build, faults)
    for fault in faults[:20]:
        print('httpd: %s' % fault)
    print('httpd (%s): %d looked at, %d not as they should be' % (versions('apache2', 'libapr1', 'curl', 'valgrind'), faults.count, len(faults)))
    return len(faults)


if __name__ == '__main__':
    parser = argparse.ArgumentParser(description=__doc__, formatter_class=argparse.RawDescriptionHelpFormatter)
    parser.add_argument('--library', default=LIBRARY)
    parser.add_argument('--quick', action='store_true')
    options = parser.parse_args()
    sys.exit(int(check(options.library, options.quick) > 0))
