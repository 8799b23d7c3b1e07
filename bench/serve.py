#!/usr/bin/env python3
"""Measures `serve`: processor time for a request, and memory.

    bench/serve.py [--program PATH] [--requests N] [--conns N] [--module FILE]

In each round one client asks for a file of 2 bytes, of 64 KiB or of 1 MiB on one connection that stays open. What is told is the processor
time of the server alone, user and system, for each request, and by how much its memory grew in a round at most. Then the file of 2 bytes is asked for on N connections
of one request each.

Peers serve the same files in the same run, each as one process that reads files and changes nothing:

- a server in C that reads each file at once and writes it once (bench/plain_server.c), where there is a C compiler; and the same server with
  reads of 8000 bytes ('C, parts'),
- nginx and apache2, where they are there; with apxs (apache2-dev), apache2 sends the files through a filter in C that passes each brigade on
  (bench/pass_filter.c),
- nginx with a body filter in Lua, which LuaJIT compiles, and apache2 with an output filter in Lua (`mod_lua`), where these are there. Each
  passes on what it is given.

All are asked by turns, in rounds, so that a machine that is slower for a while is so for each. Where the memory of a process lies, and how
the reads of its client fall, changes little while it runs, and makes a difference of up to a fifth: so each round starts all servers anew. Told are
medians, of times and of the ratios of each round.
"""
import argparse
import os
import shutil
import signal
import socket
import statistics
import subprocess
import tempfile
import time

from steps import BUILT, TOP, built

MODULE = os.path.join(TOP, 'filters', 'new.module')
SIZES = (2, 65536, 1048576)
ROUNDS = 21
FIRST = 20  # requests of each round that are not timed
NGINX = """daemon off; master_process off; pid %(folder)s/nginx.pid; error_log %(folder)s/nginx.err;
events { worker_connections 64; }
http { access_log off; client_body_temp_path %(folder)s; proxy_temp_path %(folder)s; fastcgi_temp_path %(folder)s; uwsgi_temp_path %(folder)s;
  scgi_temp_path %(folder)s; keepalive_requests 100000000; sendfile off; server { listen 127.0.0.1:%(port)d; root %(folder)s; } }
"""
APACHE = """ServerRoot %(folder)s
PidFile %(folder)s/apache.pid
ErrorLog %(folder)s/apache.err
ServerName h
User nobody
Group nogroup
Listen 127.0.0.1:%(port)d
LoadModule mpm_prefork_module /usr/lib/apache2/modules/mod_mpm_prefork.so
LoadModule authz_core_module /usr/lib/apache2/modules/mod_authz_core.so
DocumentRoot %(folder)s
MaxKeepAliveRequests 0
EnableSendfile Off
FileETag None
%(filter)s
"""
PASS = 'LoadModule pass_filter_module %s/.libs/pass_filter.so\nSetOutputFilter PASS'
LUA_MODULES = '/usr/share/nginx/modules-available/mod-http-lua.conf'
LUA_IN_NGINX = 'body_filter_by_lua_block { ngx.arg[1] = ngx.arg[1] }'
MOD_LUA = '/usr/lib/apache2/modules/mod_lua.so'
LUA_IN_APACHE = 'LoadModule lua_module ' + MOD_LUA + '\nLuaOutputFilter {0} %(folder)s/filters.lua {0}\nSetOutputFilter {0}'
PASS_IN_LUA = '''function pass(r)
  coroutine.yield()
  while bucket ~= nil do coroutine.yield(bucket) end
  coroutine.yield()
end
'''


def found(name):
    return shutil.which(name) or shutil.which(name, path='/usr/sbin')


def free_port():
    with socket.socket() as probe:
        probe.bind(('127.0.0.1', 0))
        return probe.getsockname()[1]


def processor(pid):
    """Seconds that the process had a processor, in its own code and in the system's."""
    with open('/proc/%d/schedstat' % pid) as file:
        return int(file.read().split()[0]) / 1e9


def memory(pid):
    """Resident KiB."""
    with open('/proc/%d/status' % pid) as file:
        return next(int(line.split()[1]) for line in file if line.startswith('VmRSS'))


def connect(port):
    for _ in range(100):
        try:
            link = socket.create_connection(('127.0.0.1', port), 60)
            link.setsockopt(socket.IPPROTO_TCP, socket.TCP_NODELAY, 1)
            return link
        except OSError:
            time.sleep(0.05)
    raise SystemExit('bench/serve.py: no server at port %d' % port)


def receive(link, length, buffer):
    """Takes so many bytes."""
    while length > 0:
        taken = link.recv_into(buffer, min(length, len(buffer)))
        if taken == 0:
            raise SystemExit('bench/serve.py: the server closed')
        length -= taken


def first(link, ask):
    """The length of the response, all of which is at hand once nothing comes for a while."""
    link.sendall(ask)
    got, link_timeout = b'', link.gettimeout()
    link.settimeout(0.5)
    try:
        while True:
            part = link.recv(1 << 20)
            if not part:
                break
            got += part
    except TimeoutError:
        pass
    link.settimeout(link_timeout)
    if not got.startswith(b'HTTP/1.1 200'):
        raise SystemExit('bench/serve.py: %r' % got[:80])
    return len(got)


class Peer:
    """A server that runs, and a connection to it that stays open."""

    def __init__(self, name, words, folder):
        self.name = name
        self.port = free_port()
        self.server = start(words(self.port), folder)
        self.link = connect(self.port)
        self.buffer = bytearray(1 << 20)

    def ask(self, size, length, requests):
        """Microseconds of the server for each request."""
        ask = ask_for(size)
        spent = processor(self.server.pid)
        for _ in range(requests):
            self.link.sendall(ask)
            receive(self.link, length, self.buffer)
        return (processor(self.server.pid) - spent) / requests * 1e6

    def stop(self):
        self.link.close()
        self.server.send_signal(signal.SIGTERM)
        self.server.wait()


def ask_for(size):
    return b'GET /f%d HTTP/1.1\r\nHost: h\r\n\r\n' % size


def started(words, folder):
    """All servers, each with a connection."""
    return [Peer(name, at, folder) for name, at in words]


def lengths_of(words, folder, size):
    """How many bytes each server answers."""
    peers = started(words, folder)
    try:
        return [first(peer.link, ask_for(size)) for peer in peers]
    finally:
        for peer in peers:
            peer.stop()


def round_of(words, folder, size, lengths, each):
    """What a request took of each server, all started anew and asked by turns, and how the memory of the first one grew."""
    peers = started(words, folder)
    try:
        for peer, length in zip(peers, lengths):
            peer.ask(size, length, FIRST)
        held = memory(peers[0].server.pid)
        took = [peer.ask(size, length, each) for peer, length in zip(peers, lengths)]
        return took, memory(peers[0].server.pid) - held
    finally:
        for peer in peers:
            peer.stop()


def by_turns(words, folder, size, requests):
    """Asks each server in turn, round by round, and tells the median for each and the median of the ratios of a round."""
    each = max(requests // ROUNDS, 2)
    lengths = lengths_of(words, folder, size)
    rounds = [round_of(words, folder, size, lengths, each) for _ in range(ROUNDS)]
    for number, (name, _) in enumerate(words):
        spent = statistics.median(took[number] for took, _ in rounds)
        ratio = statistics.median(took[0] / max(took[number], 0.01) for took, _ in rounds)
        after = ', %+d KiB' % max(grown for _, grown in rounds) if number == 0 else ', serve takes %.2f of it' % ratio
        print('%-12s %8d bytes: %8.1f us a request over %d in %d rounds%s' % (name, size, spent, each * ROUNDS, ROUNDS, after), flush=True)


def connections(pid, port, count):
    """KiB that the server grew by over so many connections, and microseconds for each."""
    ask = b'GET /f2 HTTP/1.1\r\nHost: h\r\nConnection: close\r\n\r\n'
    spent, held = processor(pid), memory(pid)
    for _ in range(count):
        with connect(port) as link:
            link.sendall(ask)
            while link.recv(65536):
                pass
    return (processor(pid) - spent) / count * 1e6, memory(pid) - held


def start(words, folder):
    return subprocess.Popen(words, cwd=folder, stdout=subprocess.DEVNULL, stderr=subprocess.DEVNULL)


def pass_filter(folder):
    """The lines that make apache2 send all through the filter in C, where it can be built."""
    if not shutil.which('apxs'):
        return ''
    shutil.copy(os.path.join(TOP, 'bench', 'pass_filter.c'), folder)
    built = subprocess.run(['apxs', '-c', 'pass_filter.c'], cwd=folder, stdout=subprocess.DEVNULL, stderr=subprocess.DEVNULL)
    return PASS % folder if built.returncode == 0 else ''


def nginx_with_lua(text):
    """The configuration of nginx with this in Lua, where its modules are there."""
    if not os.path.exists(LUA_MODULES):
        return None
    with open(LUA_MODULES) as file:
        loads = file.read()
    if 'ndk' not in loads:
        loads = 'load_module modules/ndk_http_module.so;\n' + loads
    return loads + NGINX.replace('sendfile off;', 'sendfile off; ' + text)


def apache_with_lua(folder, name, filters):
    """The configuration of apache2 with the filter of this name among these in Lua, where `mod_lua` is there."""
    if not os.path.exists(MOD_LUA):
        return None
    with open(os.path.join(folder, 'filters.lua'), 'w') as file:
        file.write(filters)
    return APACHE.replace('%(filter)s', LUA_IN_APACHE.format(name)).replace('apache.', name + '_in_lua.')


def with_conf(path, words, folder, name, text):
    """The words that start a server with this configuration at a port."""
    def at(port):
        conf = os.path.join(folder, name)
        with open(conf, 'w') as file:
            file.write(text.replace('%(port)d', str(port)).replace('%(folder)s', folder))
        return [path] + words + [conf]
    return at


def servers(program, module, folder):
    """The servers: a name, and the words that start it at a port."""
    shutil.copy(module, os.path.join(folder, 'module'))
    with open(os.path.join(folder, 'module.cert'), 'wb') as file:
        subprocess.run([program, 'certify', module], stdout=file)
    with open(os.path.join(folder, 'site'), 'w') as file:
        for size in SIZES:
            file.write('/f%d f%d\n' % (size, size))
    for size in SIZES:
        with open(os.path.join(folder, 'f%d' % size), 'wb') as file:
            file.write(b'x' * size)
    yield 'serve', lambda port: [program, 'serve', '--site', 'site', '--port', str(port), '--forever', 'module']
    compiler = shutil.which('cc')
    if compiler:
        plain = os.path.join(folder, 'plain_server')
        subprocess.run([compiler, '-O2', '-o', plain, os.path.join(TOP, 'bench', 'plain_server.c')], check=True)
        yield 'C', lambda port: [plain, str(port)]
        yield 'C, parts', lambda port: [plain, str(port), '8000']
    nginx, apache = found('nginx'), found('apache2')
    for name, path, words, text in (
            ('nginx', nginx, ['-c'], NGINX),
            ('apache2', apache, ['-X', '-f'], APACHE.replace('%(filter)s', pass_filter(folder))),
            ('nginx, Lua', nginx, ['-c'], nginx_with_lua(LUA_IN_NGINX)),
            ('apache2, Lua', apache, ['-X', '-f'], apache_with_lua(folder, 'pass', PASS_IN_LUA))):
        if path and text:
            yield name, with_conf(path, words, folder, name.replace(', ', '_') + '.conf', text)


def main():
    parser = argparse.ArgumentParser(description=__doc__, formatter_class=argparse.RawDescriptionHelpFormatter)
    parser.add_argument('--program', default=BUILT)
    parser.add_argument('--module', default=MODULE)
    parser.add_argument('--requests', type=int, default=20000, metavar='N', help='of 2 bytes; of larger files fewer')
    parser.add_argument('--conns', type=int, default=2000, metavar='N')
    options = parser.parse_args()
    program = built(options.program)
    with tempfile.TemporaryDirectory() as folder:
        os.chmod(folder, 0o755)
        words = list(servers(program, os.path.abspath(options.module), folder))
        for size in SIZES:
            by_turns(words, folder, size, max(options.requests // (1 + size // 100000), 20))
        peers = started(words, folder)
        try:
            for peer in peers:
                peer.link.close()
                print('%-12s %d connections: %.1f us each, %+d KiB' % ((peer.name, options.conns) + connections(peer.server.pid, peer.port, options.conns)), flush=True)
        finally:
            for peer in peers:
                peer.stop()


if __name__ == '__main__':
    main()
