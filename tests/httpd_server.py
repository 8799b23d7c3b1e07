"""An httpd of the system's package that runs on loopback, with the module and a handler for tests, which are built in a folder."""
import os
import shutil
import signal
import subprocess

from loopback import PATIENCE, TOP, asked, free_port, page, wait_for

HERE = os.path.join(TOP, 'tests', 'httpd')
MODULES = ['authz_core', 'dir', 'mime', 'alias', 'filter', 'include', 'deflate', 'proxy', 'proxy_http', 'socache_shmcb', 'ssl', 'http2', 'env']

BASE = '''ServerRoot {folder}
DefaultRuntimeDir {folder}
PidFile {folder}/pid
ErrorLog {folder}/log
LogLevel warn
ServerName localhost
{user}
Listen 127.0.0.1:{port}
LoadModule mpm_{mpm}_module {modules}/mod_mpm_{mpm}.so
{loads}
TypesConfig /etc/mime.types
DocumentRoot {folder}/site
MaxKeepAliveRequests 0
{sizes}
LoadModule cuts_module {folder}/mod_cuts.so
LoadModule checked_filter_module {folder}/mod_checked_filter.so
'''
SIZES = {'event': 'StartServers 1\nServerLimit 2\nThreadsPerChild 16\nMaxRequestWorkers 32\nMinSpareThreads 1\nMaxSpareThreads 32',
         'prefork': 'StartServers 4\nMaxRequestWorkers 32\nMinSpareServers 1\nMaxSpareServers 32'}


def lacks():
    """What is not there of what the tests want; empty where all is."""
    return [name for name in ('apxs', 'curl', 'openssl') if not shutil.which(name)]


class Build:
    """The module and the handler of these tests, built in a folder."""

    def __init__(self, folder, library):
        self.folder, self.modules = folder, asked('apxs', '-q', 'LIBEXECDIR')
        self.program = os.path.join(asked('apxs', '-q', 'SBINDIR'), asked('apxs', '-q', 'TARGET') or asked('apxs', '-q', 'PROGNAME'))
        work = os.path.join(folder, 'httpd')
        shutil.copytree(os.path.join(TOP, 'httpd'), work, ignore=shutil.ignore_patterns('.libs', '*.o', '*.lo', '*.la', '*.slo'))
        self.run('make', '-C', work, 'LIBRARY=' + os.path.abspath(library))
        shutil.copy(os.path.join(HERE, 'mod_cuts.c'), work)
        self.run('apxs', '-c', 'mod_cuts.c', cwd=work)
        for name in ('mod_checked_filter.so', 'mod_cuts.so'):
            shutil.copy(os.path.join(work, '.libs', name), folder)
        self.site()
        os.chmod(folder, 0o755)

    def run(self, *words, cwd=None):
        done = subprocess.run(words, cwd=cwd, capture_output=True, text=True)
        if done.returncode:
            raise SystemExit('httpd: %s failed:\n%s' % (' '.join(words), (done.stdout + done.stderr)[-4000:]))

    def site(self):
        """The pages: by their lengths, and some with includes."""
        site = os.path.join(self.folder, 'site')
        os.makedirs(site)
        for length in (0, 2, 1000, 65536, 1000000):
            with open(os.path.join(site, 'f%d' % length), 'wb') as file:
                file.write(page(length))
        script = os.path.join(self.folder, 'script')
        with open(script, 'w') as file:
            file.write("#!/bin/sh\nprintf 'Content-Type: text/plain\\n\\na'\nsleep 0.6\nprintf b\n")
        os.chmod(script, 0o755)
        with open(os.path.join(site, 'part.shtml'), 'w') as file:
            file.write('<!--#include virtual="/include/f2" -->')
        with open(os.path.join(site, 'page.shtml'), 'w') as file:
            file.write('a<!--#include virtual="/up/f2" -->b<!--#include virtual="/both/part.shtml" -->c')

    def config(self, port, mpm, text):
        loads = '\n'.join('LoadModule %s_module %s/mod_%s.so' % (name, self.modules, name) for name in MODULES)
        path = os.path.join(self.folder, 'conf%d' % port)
        user = 'User nobody\nGroup nogroup' if os.getuid() == 0 else ''
        with open(path, 'w') as file:
            file.write(BASE.format(folder=self.folder, port=port, mpm=mpm, modules=self.modules, loads=loads, sizes=SIZES[mpm], user=user) + text)
        return path

    def told(self, text):
        """What `-t` says of a configuration: the exit status, and the lines."""
        path = self.config(free_port(), 'event', text)
        done = subprocess.run([self.program, '-f', path, '-t'], capture_output=True, text=True, timeout=PATIENCE)
        return done.returncode, done.stdout + done.stderr


class Server:
    """An httpd that runs while the `with` does."""

    def __init__(self, build, mpm, text, before=()):
        self.build, self.mpm, self.port = build, mpm, free_port()
        self.path = build.config(self.port, mpm, text.replace('{port}', str(self.port)))
        self.log = os.path.join(build.folder, 'log')
        open(self.log, 'w').close()
        self.process = subprocess.Popen([*before, build.program, '-f', self.path, '-X' if before else '-DFOREGROUND'], stdout=subprocess.DEVNULL,
                                        stderr=subprocess.PIPE, start_new_session=True)  # it ends all of its group
        if not wait_for(self.port):
            self.process.kill()
            raise SystemExit('httpd does not start: %s' % self.process.stderr.read()[-2000:].decode())

    def __enter__(self):
        return self

    def __exit__(self, *_):
        self.process.send_signal(signal.SIGTERM)
        try:
            self.process.wait(PATIENCE)
        except subprocess.TimeoutExpired:
            self.process.kill()
            self.process.wait()

    def logged(self):
        with open(self.log) as file:
            return file.read()

    def control(self, word, path=None):
        return subprocess.run([self.build.program, '-f', path or self.path, '-k', word], capture_output=True, text=True)
