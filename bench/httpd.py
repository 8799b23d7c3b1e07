#!/usr/bin/env python3
"""Measures checked filters inside Apache httpd, beside a filter in C that passes each brigade on, mod_lua, and no filter.

    bench/httpd.py [--library PATH] [--mpm event|prefork] [--rounds N] [--seconds S] [--sizes N,..] [--clients N] [--only NAME,..] [--flat N]

Wanted are apache2, apache2-dev, wrk and the library that `./host --library` builds. Each variant is a server of its own; in each round every one is
asked for pages by wrk, by turns. Told are medians over the rounds: the processor time of the server for a request, in microseconds, requests a second,
and the ratios of both to those of the filter in C within the same round. First stand the versions, and what a session costs
(session_costs.c). With --flat N the memory of the server is told before and after N requests of 2 bytes.
"""
import argparse
import os
import re
import shutil
import signal
import statistics
import subprocess
import sys
import tempfile
import time

HERE = os.path.dirname(os.path.abspath(__file__))
TOP = os.path.dirname(HERE)
sys.path.insert(0, os.path.join(TOP, 'tests'))
from httpd_server import Build, lacks  # noqa: E402
from loopback import LIBRARY, free_port, lib, versions, wait_for  # noqa: E402

TICK = os.sysconf('SC_CLK_TCK')
FILTERS_LUA = '''
function pass(r)
    coroutine.yield()
    while bucket do
        coroutine.yield(bucket)
    end
end
function upper(r)
    coroutine.yield()
    while bucket do
        coroutine.yield(bucket:upper())
    end
end
'''
CHECKED = 'CheckedFilterBudget 100000000\nCheckedFilter X {}\nSetOutputFilter X\n'
LUA = 'LoadModule lua_module {modules}/mod_lua.so\nLuaOutputFilter {name} {folder}/filters.lua {name}\nSetOutputFilter {name}\n'
IN_C = 'LoadModule {name}_filter_module {folder}/{name}_filter.so\nSetOutputFilter {upper}\n'
CONF = '''ServerRoot {folder}
DefaultRuntimeDir {folder}
PidFile {folder}/pid{port}
ErrorLog {folder}/log{port}
ServerName localhost
{user}
Listen 127.0.0.1:{port}
LoadModule mpm_{mpm}_module {modules}/mod_mpm_{mpm}.so
LoadModule authz_core_module {modules}/mod_authz_core.so
LoadModule checked_filter_module {folder}/mod_checked_filter.so
DocumentRoot {folder}/site
MaxKeepAliveRequests 0
EnableSendfile Off
FileETag None
{sizes}
'''
SIZES = {'event': 'StartServers 1\nServerLimit 1\nThreadsPerChild {0}\nMaxRequestWorkers {0}\nThreadLimit {0}',
         'prefork': 'StartServers {0}\nMaxRequestWorkers {0}\nMinSpareServers 1\nMaxSpareServers {0}'}


class Peer:
    """A server of one variant."""

    def __init__(self, build, name, text, options):
        self.name, self.port = name, free_port()
        path = os.path.join(build.folder, 'bench%d' % self.port)
        user = 'User nobody\nGroup nogroup' if os.getuid() == 0 else ''
        with open(path, 'w') as file:
            file.write(CONF.format(folder=build.folder, port=self.port, mpm=options.mpm, modules=build.modules, user=user,
                                   sizes=SIZES[options.mpm].format(max(32, options.clients))) + text)
        self.process = subprocess.Popen([build.program, '-f', path, '-DFOREGROUND'], start_new_session=True, stdout=subprocess.DEVNULL)
        if not wait_for(self.port):
            raise SystemExit('bench/httpd.py: the server of %s does not start' % name)

    def children(self):
        return [int(word) for word in subprocess.run(['ps', '-o', 'pid=', '--ppid', str(self.process.pid)], capture_output=True, text=True).stdout.split()]

    def spent(self):
        """Processor time of the children, in seconds."""
        total = 0
        for pid in self.children():
            with open('/proc/%d/stat' % pid) as file:
                words = file.read().rsplit(')', 1)[1].split()
            total += int(words[11]) + int(words[12])
        return total / TICK

    def memory(self):
        """Resident memory of the children, in KiB."""
        total = 0
        for pid in self.children():
            with open('/proc/%d/status' % pid) as file:
                total += int(re.search(r'VmRSS:\s+(\d+)', file.read())[1])
        return total

    def ask(self, size, clients, seconds):
        """Microseconds of processor for a request, requests a second, and answers that were no pages."""
        before = self.spent()
        told = subprocess.run(['wrk', '-t1', '-c%d' % clients, '-d%ds' % seconds, 'http://127.0.0.1:%d/f%d' % (self.port, size)], capture_output=True,
                              text=True).stdout
        used = self.spent() - before
        bad = re.search(r'Non-2xx or 3xx responses: (\d+)', told)
        return used / int(re.search(r'(\d+) requests in', told)[1]) * 1e6, float(re.search(r'Requests/sec:\s+([\d.]+)', told)[1]), int(bad[1]) if bad else 0

    def end(self):
        self.process.send_signal(signal.SIGTERM)
        self.process.wait(30)


def variants(build):
    """What stands in the configuration of each server."""
    lua = {'folder': build.folder, 'modules': build.modules}
    found = {'none': '', 'C, pass': IN_C.format(folder=build.folder, name='pass', upper='PASS'), 'checked, pass': CHECKED.format(lib('new')[:-3] + 'module')}
    if os.path.exists(os.path.join(build.modules, 'mod_lua.so')):
        found['mod_lua, pass'] = LUA.format(name='pass', **lua)
    found['C, upper'] = IN_C.format(folder=build.folder, name='upper', upper='UPPER')
    found['checked, upper'] = CHECKED.format(lib('upper'))
    found['checked, suffix'] = CHECKED.format(lib('suffix'))
    if 'mod_lua, pass' in found:
        found['mod_lua, upper'] = LUA.format(name='upper', **lua)
    return found


def prepare(build, sizes):
    """The filters in C and in Lua, and the pages."""
    for name in ('pass_filter', 'upper_filter'):
        shutil.copy(os.path.join(HERE, name + '.c'), build.folder)
        build.run('apxs', '-c', name + '.c', cwd=build.folder)
        shutil.copy(os.path.join(build.folder, '.libs', name + '.so'), build.folder)
    with open(os.path.join(build.folder, 'filters.lua'), 'w') as file:
        file.write(FILTERS_LUA)
    for size in sizes:
        with open(os.path.join(build.folder, 'site', 'f%d' % size), 'wb') as file:
            file.write((b'The quick brown fox jumps over the lazy dog. ' * (size // 45 + 1))[:size])


def costs(build, library):
    """What a session costs."""
    program = os.path.join(build.folder, 'session_costs')
    build.run('cc', '-O2', '-I' + os.path.join(TOP, 'httpd'), os.path.join(HERE, 'session_costs.c'), os.path.join(TOP, 'httpd', 'checked_session.c'),
              os.path.abspath(library), '-lpthread', '-o', program)
    print(subprocess.run([program, lib('new')[:-3] + 'module'], capture_output=True, text=True).stdout, flush=True)


def measure(peers, size, options):
    """Rounds by turns, and their medians."""
    clients = min(options.clients, 8) if size >= 1 << 20 else options.clients
    got = {peer.name: [] for peer in peers}
    for _ in range(options.rounds):
        for peer in peers:
            got[peer.name].append(peer.ask(size, clients, options.seconds))
    base = got.get('C, pass') or got[peers[0].name]
    for peer in peers:
        mine = got[peer.name]
        time_of, rate_of = (statistics.median(one[k] for one in mine) for k in (0, 1))
        ratio, rates = (statistics.median(one[k] / other[k] for one, other in zip(mine, base)) for k in (0, 1))
        print('%-16s %8d bytes, %2d clients: %9.1f us (%5.2f), %9.0f a second (%5.2f), %d bad, %6d KiB' % (
            peer.name, size, clients, time_of, ratio, rate_of, rates, sum(one[2] for one in mine), peer.memory()), flush=True)


def flat(peer, count):
    """The memory of a server before and after many requests."""
    peer.ask(2, 16, 1)
    before, done = peer.memory(), 0
    while done < count:
        done += int(peer.ask(2, 16, 5)[1] * 5)
    print('%s: %d KiB, and after some %d requests %d KiB' % (peer.name, before, done, peer.memory()))


def main():
    parser = argparse.ArgumentParser(description=__doc__, formatter_class=argparse.RawDescriptionHelpFormatter)
    parser.add_argument('--library', default=LIBRARY)
    parser.add_argument('--mpm', default='event', choices=['event', 'prefork'])
    parser.add_argument('--rounds', type=int, default=21)
    parser.add_argument('--seconds', type=int, default=1)
    parser.add_argument('--sizes', default='2,65536,1048576')
    parser.add_argument('--clients', type=int, default=16)
    parser.add_argument('--only', help='names of variants, with semicolons between them')
    parser.add_argument('--flat', type=int, default=0, metavar='N')
    options = parser.parse_args()
    sizes = [int(word) for word in options.sizes.split(',')]
    missing = lacks() + [name for name in ('wrk',) if not shutil.which(name)]
    if missing or not os.path.exists(options.library):
        raise SystemExit('bench/httpd.py: there is no %s' % (', '.join(missing) or options.library))
    with tempfile.TemporaryDirectory() as folder:
        build, peers = Build(folder, options.library), []
        prepare(build, sizes)
        print('%s; %s, %d rounds of %d s' % (versions('apache2', 'wrk'), options.mpm, options.rounds, options.seconds))
        costs(build, options.library)
        try:
            for name, text in variants(build).items():
                if not options.only or name in options.only.split(';'):
                    peers.append(Peer(build, name, text, options))
            time.sleep(1)
            for size in sizes:
                measure(peers, size, options)
            for peer in peers:
                if options.flat and peer.name == 'checked, pass':
                    flat(peer, options.flat)
        finally:
            for peer in peers:
                peer.end()


if __name__ == '__main__':
    main()
