#!/usr/bin/env python3
"""Measures a filter that looks at each byte: `upper` on 1 MiB through `serve`, beside the same loop in other servers.

    bench/bytes.py [--program PATH] [--program PATH] [--rounds N]

Told is the processor time of the server for a request, user and system, and the time of a request that the same server sends with a filter
that passes on, so that the rest is the loop. All servers are asked by turns; told are medians and the ratios of each round. With more than
one PROGRAM each is a server of its own, so that a change is compared with what was there before.

Peers, where they are there: nginx with a body filter in Lua, which LuaJIT compiles; apache2 with an output filter in Lua
(`mod_lua`), and with one in C (bench/upper_filter.c, built by `apxs`). Each makes letters a to z capitals, byte by byte. Where node is there,
the same loop as WebAssembly is measured by itself (bench/upper_wasm.js), and beside it what the filter costs in `serve`.
"""
import argparse
import os
import shutil
import statistics
import subprocess
import tempfile

from serve import APACHE, LUA_IN_NGINX, MODULE, PASS_IN_LUA, Peer, apache_with_lua, ask_for, first, found, nginx_with_lua, with_conf
from steps import BUILT, TOP, built

SIZE = 1048576
UPPER = os.path.join(TOP, 'filters', 'upper.mod')
LOOP = '''local s, out = %s, {}
for i = 1, #s do
  local c = string.byte(s, i)
  if c >= 97 and c < 123 then c = c - 32 end
  out[i] = string.char(c)
end
'''
IN_NGINX = 'body_filter_by_lua_block { ' + LOOP % 'ngx.arg[1]' + 'ngx.arg[1] = table.concat(out) }'
IN_APACHE = '''function upper(r)
  coroutine.yield()
  while bucket ~= nil do
    ''' + LOOP % 'bucket' + '''
    coroutine.yield(table.concat(out))
  end
  coroutine.yield()
end
''' + PASS_IN_LUA


def in_c(folder, name):
    """The lines that load a filter in C of bench/, where it can be built."""
    shutil.copy(os.path.join(TOP, 'bench', name + '.c'), folder)
    done = subprocess.run(['apxs', '-c', name + '.c'], cwd=folder, stdout=subprocess.DEVNULL, stderr=subprocess.DEVNULL)
    return 'LoadModule %s_module %s/.libs/%s.so\nSetOutputFilter %s' % (name, folder, name, name.split('_')[0].upper()) if done.returncode == 0 else None


def ours(program, number, folder):
    """`serve` with the filter that passes on, and with `upper`."""
    pair = []
    for name, module in (('pass', MODULE), ('upper', UPPER)):
        file = '%s%d' % (name, number)
        shutil.copy(module, os.path.join(folder, file))
        with open(os.path.join(folder, file + '.cert'), 'wb') as out:
            subprocess.run([program, 'certify', module], stdout=out, check=True)
        pair.append(lambda port, file=file: [program, 'serve', '--site', 'site', '--port', str(port), '--forever', '--budget', '4294967295', file])
    return pair


def servers(programs, folder):
    """The servers: a name, and how each starts with a filter that passes on and with one that looks at each byte."""
    for number, program in enumerate(programs):
        yield 'serve' if number == 0 else program, ours(program, number, folder)
    nginx, apache = found('nginx'), found('apache2')
    texts = [nginx_with_lua(text) for text in (LUA_IN_NGINX, IN_NGINX)]
    if nginx and None not in texts:
        yield 'nginx, LuaJIT', [with_conf(nginx, ['-c'], folder, 'nginx%d.conf' % k, text) for k, text in enumerate(texts)]
    texts = [apache_with_lua(folder, name, IN_APACHE) for name in ('pass', 'upper')]
    if apache and None not in texts:
        yield 'apache2, Lua', [with_conf(apache, ['-X', '-f'], folder, 'lua%d.conf' % k, text) for k, text in enumerate(texts)]
    if apache and shutil.which('apxs'):
        lines = [in_c(folder, name) for name in ('pass_filter', 'upper_filter')]
        if None not in lines:
            yield 'apache2, C', [with_conf(apache, ['-X', '-f'], folder, 'c%d.conf' % k, APACHE.replace('%(filter)s', text).replace('apache.', 'c%d.' % k))
                                 for k, text in enumerate(lines)]


def in_wasm():
    """How many milliseconds of a processor the loop takes as WebAssembly; none where node is not there."""
    if shutil.which('node') is None:
        return None
    done = subprocess.run(['node', os.path.join(TOP, 'bench', 'upper_wasm.js'), str(SIZE)], stdout=subprocess.PIPE)
    return float(done.stdout) if done.returncode == 0 else None


def body(peer, length):
    """The body of a response of so many bytes, its chunks put together."""
    peer.link.sendall(ask_for(SIZE))
    got = b''
    while len(got) < length:
        part = peer.link.recv(length - len(got))
        if not part:
            raise SystemExit('bench/bytes.py: %s closed' % peer.name)
        got += part
    head, _, rest = got.partition(b'\r\n\r\n')
    if b'chunked' not in head.lower():
        return rest
    parts = []
    while rest:
        size, _, rest = rest.partition(b'\r\n')
        parts.append(rest[:int(size, 16)])
        rest = rest[int(size, 16) + 2:]
    return b''.join(parts)


def main():
    parser = argparse.ArgumentParser(description=__doc__, formatter_class=argparse.RawDescriptionHelpFormatter)
    parser.add_argument('--program', action='append', metavar='PATH')
    parser.add_argument('--rounds', type=int, default=11, metavar='N')
    options = parser.parse_args()
    programs = [built(program) for program in options.program or [BUILT]]
    text = (b'The quick brown fox jumps over the lazy dog. 0123456789\n' * 20000)[:SIZE]
    with tempfile.TemporaryDirectory() as folder:
        os.chmod(folder, 0o755)
        with open(os.path.join(folder, 'site'), 'w') as site:
            site.write('/f%d f%d\n' % (SIZE, SIZE))
        with open(os.path.join(folder, 'f%d' % SIZE), 'wb') as file:
            file.write(text)
        peers = []
        try:
            for name, pair in servers(programs, folder):
                passes, uppers = [Peer(name, words, folder) for words in pair]
                even, long = first(passes.link, ask_for(SIZE)), first(uppers.link, ask_for(SIZE))
                if body(passes, even) != text or body(uppers, long) != text.upper():
                    raise SystemExit('bench/bytes.py: %s sent another body' % name)
                peers.append((name, passes, uppers, even, long))
            rounds = [[(passes.ask(SIZE, even, 3), uppers.ask(SIZE, long, 3)) for _, passes, uppers, even, long in peers] for _ in range(options.rounds)]
            for number, (name, *_) in enumerate(peers):
                passed, changed = (statistics.median(took[number][k] for took in rounds) / 1000 for k in (0, 1))
                ratio = statistics.median(took[0][1] / took[number][1] for took in rounds)
                print('%-16s passes on %7.2f ms, upper %7.2f ms%s' % (name, passed, changed, '' if number == 0 else ': serve takes %.2f of it' % ratio), flush=True)
            alone = in_wasm()
            if alone is not None:
                loop = statistics.median(took[0][1] - took[0][0] for took in rounds) / 1000
                print('%-16s the loop alone %6.2f ms: that of serve takes %.2f of it' % ('WebAssembly', alone, loop / alone), flush=True)
        finally:
            for _, passes, uppers, _, _ in peers:
                passes.stop()
                uppers.stop()


if __name__ == '__main__':
    main()
