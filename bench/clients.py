#!/usr/bin/env python3
"""Measures `serve --at-once` under many clients, beside other servers in the same run.

    bench/clients.py [--program PATH] [--seconds N] [PART ..]

PART is one or more of these, and all where none is given:

    wrk        requests a second, and the latency that 99 of 100 keep, of 1, 8, 64 and 1,000 connections for files of 2 bytes, 64 KiB and
               1 MiB. Beside: nginx with one worker and a filter in Lua that passes on, and apache2 with a filter in C that does
    work       the latency of a request for 2 bytes: alone, and beside a connection whose filter looks at each byte of 16 MiB
    slow       the same beside 1,000 connections that send a byte of a head a second, and beside 1,000 that take nothing of 1 MiB
    idle       memory of an idle connection, with 10,000 of them
    flat       memory after 1,000,000 requests on 64 connections, and after 24 MiB of requests sent ahead on one

`wrk`, `nginx` with its module for Lua, and `apache2` with `apxs` are Debian's. What is not there is left out.
"""
import argparse
import os
import re
import resource
import shutil
import signal
import socket
import statistics
import subprocess
import tempfile
import threading
import time

from serve import APACHE, LUA_IN_NGINX, MODULE, PASS, SIZES, ask_for, connect, first, found, free_port, memory, nginx_with_lua, pass_filter, receive, start
from steps import BUILT, TOP, built

EVENT = APACHE.replace('LoadModule mpm_prefork_module /usr/lib/apache2/modules/mod_mpm_prefork.so', '''LoadModule mpm_event_module /usr/lib/apache2/modules/mod_mpm_event.so
ServerLimit 16
ThreadLimit 64
ThreadsPerChild 64
MaxRequestWorkers 1024''')
CLIENTS = (1, 8, 64, 1000)
PARTS = ('wrk', 'work', 'slow', 'idle', 'flat')
LARGE = 16 << 20
ASKED = 2000
IDLE = 10_000


def lay_out(program, folder):
    """The site, its files, and the two filters with their certificates: one that passes on, and `upper`."""
    for name, module in (('pass', MODULE), ('upper', os.path.join(TOP, 'filters', 'upper.mod'))):
        shutil.copy(module, os.path.join(folder, name))
        with open(os.path.join(folder, name + '.cert'), 'wb') as file:
            subprocess.run([program, 'certify', module], stdout=file, check=True)
    with open(os.path.join(folder, 'site'), 'w') as site:
        for size in SIZES + (LARGE,):
            site.write('/f%d f%d\n' % (size, size))
            with open(os.path.join(folder, 'f%d' % size), 'wb') as file:
                file.write(b'x' * size)


def serve(program, folder, module='pass', places=2048):
    """A running `serve`, and its port."""
    port = free_port()
    words = [program, 'serve', '--site', 'site', '--port', str(port), '--forever', '--at-once', str(places), '--budget', '4294967295', module]
    running = start(words, folder)
    connect(port).close()
    return running, port


def stop(running):
    running.send_signal(signal.SIGTERM)
    running.wait()


def peers(folder):
    """The other servers that are here: a name, and the words that start each at a port."""
    nginx, apache, text = found('nginx'), found('apache2'), nginx_with_lua(LUA_IN_NGINX)
    if nginx and text:
        yield 'nginx, Lua', nginx, ['-c'], text.replace('worker_connections 64', 'worker_connections 4096')
    if apache and shutil.which('apxs'):
        yield 'apache2, C', apache, ['-D', 'FOREGROUND', '-f'], EVENT


def started(folder):
    """Each other server, running: its name, process and port."""
    for name, path, words, text in peers(folder):
        port = free_port()
        conf = os.path.join(folder, name.split(',')[0] + '.conf')
        with open(conf, 'w') as file:
            file.write(text % {'folder': folder, 'port': port, 'filter': pass_filter(folder)})
        running = start([path] + words + [conf], folder)
        connect(port).close()
        yield name, running, port


def wrk(port, size, clients, seconds):
    """Requests a second, and the latency in milliseconds that 99 of 100 keep."""
    done = subprocess.run(['wrk', '-t1', '-c%d' % clients, '-d%ds' % seconds, '--latency', 'http://127.0.0.1:%d/f%d' % (port, size)],
                          capture_output=True, text=True)
    rate = float(re.search(r'Requests/sec:\s+([\d.]+)', done.stdout)[1])
    number, unit = re.search(r'99%\s+([\d.]+)(us|ms|s)\b', done.stdout).groups()
    return rate, float(number) * {'us': 0.001, 'ms': 1, 's': 1000}[unit]


def by_wrk(program, folder, seconds):
    if not shutil.which('wrk'):
        print('wrk is not here')
        return
    running, port = serve(program, folder)
    all = [('serve', running, port)] + list(started(folder))
    try:
        for size in SIZES:
            for clients in CLIENTS:
                found = [(name,) + wrk(at, size, clients, seconds) for name, _, at in all]
                print('%8d bytes, %5d clients  ' % (size, clients) + '  '.join(
                    '%s: %.0f a second (%.2f of serve), p99 %.2f ms' % (name, rate, rate / found[0][1], late) for name, rate, late in found), flush=True)
    finally:
        for _, process, _ in all:
            stop(process)


def latencies(port):
    """Milliseconds of so many requests for 2 bytes, one after another."""
    link, buffer, taken = connect(port), bytearray(4096), []
    length = first(link, ask_for(2))
    for _ in range(ASKED):
        begun = time.perf_counter()
        link.sendall(ask_for(2))
        receive(link, length, buffer)
        taken.append((time.perf_counter() - begun) * 1000)
    link.close()
    return taken


def tell(name, taken, alone=None):
    late = statistics.quantiles(taken, n=100)[98]
    more = '' if alone is None else ', %+.2f ms' % (late - statistics.quantiles(alone, n=100)[98])
    print('2 bytes %-46s median %.3f ms, p99 %.2f ms%s' % (name, statistics.median(taken), late, more), flush=True)


class Beside:
    """What another thread does over and over, until it is stopped."""

    def __init__(self, work):
        self.goes = True
        self.thread = threading.Thread(target=self.run, args=(work,), daemon=True)
        self.thread.start()

    def run(self, work):
        while self.goes:
            work()

    def stop(self):
        self.goes = False


def work(program, folder):
    running, port = serve(program, folder, 'upper')
    try:
        alone = latencies(port)
        tell('alone', alone)

        def large():
            with connect(port) as link:
                link.sendall(b'GET /f%d HTTP/1.1\r\nHost: h\r\nConnection: close\r\n\r\n' % LARGE)
                while link.recv(1 << 20):
                    pass
        beside = Beside(large)
        time.sleep(0.2)
        tell('beside a filter at each byte of 16 MiB', latencies(port), alone)
        beside.stop()
    finally:
        stop(running)


def slow(program, folder):
    running, port = serve(program, folder)
    try:
        alone = latencies(port)
        tell('alone', alone)
        drips = [connect(port) for _ in range(1000)]

        def drip():
            for link in drips:
                try:
                    link.send(b'G')
                except OSError:
                    pass
            time.sleep(1)
        beside = Beside(drip)
        tell('beside 1,000 that drip', latencies(port), alone)
        beside.stop()
        for link in drips:
            link.close()
        silent = [connect(port) for _ in range(1000)]
        for link in silent:
            link.setsockopt(socket.SOL_SOCKET, socket.SO_RCVBUF, 4096)
            link.sendall(ask_for(SIZES[2]))
        time.sleep(8)
        tell('beside 1,000 that take nothing of 1 MiB', latencies(port), alone)
        print('memory meanwhile: %.1f MiB' % (memory(running.pid) / 1024))
        for link in silent:
            link.close()
    finally:
        stop(running)


def idle(program, folder):
    """Twice as many descriptors as connections are wanted, and some more; root may ask for them."""
    try:
        resource.setrlimit(resource.RLIMIT_NOFILE, (32768, 32768))
    except (OSError, ValueError):
        limit = resource.getrlimit(resource.RLIMIT_NOFILE)[1]
        resource.setrlimit(resource.RLIMIT_NOFILE, (limit, limit))
    count = min(IDLE, (resource.getrlimit(resource.RLIMIT_NOFILE)[0] - 16) // 2 - 10)
    running, port = serve(program, folder, places=count + 5)
    try:
        before = memory(running.pid)
        links = []
        for _ in range(count):
            link = connect(port)
            link.sendall(ask_for(2))
            links.append(link)
        answered = sum(link.recv(4096).startswith(b'HTTP/1.1 200') for link in links)
        print('%d idle connections, %d answered: %.1f KiB each' % (count, answered, (memory(running.pid) - before) / count), flush=True)
    finally:
        stop(running)


def flat(program, folder):
    running, port = serve(program, folder)
    try:
        connect(port).close()
        found = ['%.1f MiB' % (memory(running.pid) / 1024)]
        done = 0
        while done < 1_000_000 and shutil.which('wrk'):
            run = subprocess.run(['wrk', '-t1', '-c64', '-d5s', 'http://127.0.0.1:%d/f2' % port], capture_output=True, text=True)
            done += int(re.search(r'(\d+) requests in', run.stdout)[1])
            found.append('%d: %.1f MiB' % (done, memory(running.pid) / 1024))
        print('resident after requests on 64 connections: ' + ', '.join(found), flush=True)
        held = memory(running.pid)
        with connect(port) as link:
            # so long that reads end inside a head again and again
            ask = b'GET /f2 HTTP/1.1\r\nHost: h\r\nX-Pad: %s\r\n\r\n' % (b'x' * 997)
            taker = threading.Thread(target=lambda: [None for _ in iter(lambda: link.recv(1 << 16), b'')], daemon=True)
            taker.start()
            for _ in range((24 << 20) // len(ask)):
                link.sendall(ask)
            link.shutdown(socket.SHUT_WR)
            taker.join(60)
        print('resident after 24 MiB of requests sent ahead: %+d KiB' % (memory(running.pid) - held), flush=True)
    finally:
        stop(running)


def main():
    parser = argparse.ArgumentParser(description=__doc__, formatter_class=argparse.RawDescriptionHelpFormatter)
    parser.add_argument('--program', default=BUILT)
    parser.add_argument('--seconds', type=int, default=3, metavar='N', help='of each run of wrk')
    parser.add_argument('parts', nargs='*', metavar='PART')
    options = parser.parse_args()
    program = built(options.program)
    with tempfile.TemporaryDirectory() as folder:
        os.chmod(folder, 0o755)
        lay_out(program, folder)
        for part in options.parts or PARTS:
            if part == 'wrk':
                by_wrk(program, folder, options.seconds)
            else:
                {'work': work, 'slow': slow, 'idle': idle, 'flat': flat}[part](program, folder)


if __name__ == '__main__':
    main()
