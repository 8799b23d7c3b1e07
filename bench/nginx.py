#!/usr/bin/env python3
"""Measures checked filters inside nginx, beside no filter, body filters in Lua, and sub_filter.

    bench/nginx.py [--library PATH] [--rounds N] [--seconds N] [--sizes N,..] [--clients N]

Wanted are nginx, nginx-dev, wrk and the library that `./host --library` builds; libnginx-mod-http-lua where Lua is to be measured. What is told
is as bench/httpd.py has it, of one worker; ratios are to no filter.
"""
import argparse
import os
import shutil
import subprocess
import sys
import tempfile

from httpd import Peer, measure

sys.path.insert(0, os.path.join(os.path.dirname(os.path.dirname(os.path.abspath(__file__))), 'tests'))
import nginx  # noqa: E402
from loopback import LIBRARY, free_port, lib, versions, wait_for  # noqa: E402

MODULES = '/usr/lib/nginx/modules'
CONF = '''{loads}
daemon off;
pid {folder}/pid{port};
error_log {folder}/log{port} warn;
worker_processes 1;
{user}
events {{ worker_connections 512; }}
http {{
    access_log off;
    client_body_temp_path {folder}/body;
    proxy_temp_path {folder}/proxy;
    fastcgi_temp_path {folder}/fastcgi;
    uwsgi_temp_path {folder}/uwsgi;
    scgi_temp_path {folder}/scgi;
    keepalive_requests 1000000000;
    sendfile off;
    output_buffers 2 64k;
    server {{
        listen 127.0.0.1:{port};
        root {folder}/site;
        checked_filter_budget 100000000;
        {text}
    }}
}}
'''
VARIANTS = {
    'none': '',
    'checked, pass': 'checked_filter %smodule;' % lib('new')[:-3],
    'Lua, pass': 'header_filter_by_lua_block { ngx.header.content_length = nil } body_filter_by_lua_block { ngx.arg[1] = ngx.arg[1] }',
    'sub_filter': "sub_filter_types *; sub_filter_once off; sub_filter 'no such word' 'x';",
    'checked, upper': 'checked_filter %s;' % lib('upper'),
    'Lua, upper': 'header_filter_by_lua_block { ngx.header.content_length = nil } '
                  'body_filter_by_lua_block { ngx.arg[1] = string.upper(ngx.arg[1]) }',
    'checked, suffix': 'checked_filter %s;' % lib('suffix'),
}


class Worker(Peer):
    """A server of one variant, with one worker."""

    def __init__(self, build, name, text, loads):
        self.name, self.port = name, free_port()
        path = os.path.join(build.folder, 'bench%d' % self.port)
        user = 'user nobody nogroup;' if os.getuid() == 0 else ''
        with open(path, 'w') as file:
            file.write(CONF.format(folder=build.folder, port=self.port, text=text, loads=loads, user=user))
        self.process = subprocess.Popen(['nginx', '-p', build.folder, '-c', path], start_new_session=True)
        if not wait_for(self.port):
            raise SystemExit('bench/nginx.py: the server of %s does not start' % name)


def main():
    parser = argparse.ArgumentParser(description=__doc__, formatter_class=argparse.RawDescriptionHelpFormatter)
    parser.add_argument('--library', default=LIBRARY)
    parser.add_argument('--rounds', type=int, default=21)
    parser.add_argument('--seconds', type=int, default=1)
    parser.add_argument('--sizes', default='2,65536,1048576')
    parser.add_argument('--clients', type=int, default=16)
    options = parser.parse_args()
    sizes = [int(word) for word in options.sizes.split(',')]
    missing = nginx.lacks() + [name for name in ('wrk',) if not shutil.which(name)]
    if missing or not os.path.exists(options.library):
        raise SystemExit('bench/nginx.py: there is no %s' % (', '.join(missing) or options.library))
    with tempfile.TemporaryDirectory() as folder:
        build, peers = nginx.Build(folder, options.library), []
        for size in sizes:
            build.put('f%d' % size, (b'The quick brown fox jumps over the lazy dog. ' * (size // 45 + 1))[:size])
        print('%s; %d rounds of %d s' % (versions('nginx', 'libnginx-mod-http-lua', 'wrk'), options.rounds, options.seconds))
        has_lua = os.path.exists(os.path.join(MODULES, 'ngx_http_lua_module.so'))
        loads = 'load_module %s/module.so;' % folder
        if has_lua:
            loads = 'load_module %s/ndk_http_module.so; load_module %s/ngx_http_lua_module.so; ' % (MODULES, MODULES) + loads
        try:
            for name, text in VARIANTS.items():
                if has_lua or 'Lua' not in name:
                    peers.append(Worker(build, name, text, loads))
            for size in sizes:
                measure(peers, size, options)
        finally:
            for peer in peers:
                peer.end()


if __name__ == '__main__':
    main()
