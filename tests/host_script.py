"""The script `host`, tried on a small repository with a small `rt`: builds that are ended, killed and doubled, and files that are handed in.

The `rt` of the tests proves a crate by a sleep, and leaves a file in its `out`. It writes each proof to a list, so that it can
be seen which crate was proved how often.
"""
import os
import pty
import shutil
import signal
import subprocess
import sys
import tempfile
import time

TOP = os.path.dirname(os.path.dirname(os.path.abspath(__file__)))
CRATES = {'low': [], 'middle': ['low'], 'host_cli': ['middle'], 'other': ['low']}
PATIENCE = 20
SYSTEM = '/usr/bin:/bin'
RT = '''#!%s
import os, sys, time
words = sys.argv[1:]
folder = os.path.dirname(os.path.abspath(__file__))
if words[:2] == ['all', 'check']:
    for line in open('crates.txt'):
        name = line.split(':')[0]
        out = os.path.join('crates', name, 'out')
        if not os.path.exists(os.path.join(out, 'proved')):
            time.sleep(0.3)
            os.makedirs(out, exist_ok=True)
            open(os.path.join(out, 'proved'), 'w').close()
            open(os.path.join(folder, 'proofs'), 'a').write(name + '\\n')
        print('== ' + name, flush=True)
    print('== summary')
elif words[0] == 'run':
    if os.path.exists(os.path.join(folder, 'fails')):
        sys.exit('not proved')
    with open('out/host_cli', 'w') as program:
        program.write('#!/bin/sh\\necho ran "$@"\\ncat\\nexit 7\\n')
    os.chmod('out/host_cli', 0o755)
elif words[0] == 'try':
    if 'wait' in words:
        time.sleep(60)
    print(words[words.index('--') + 1:])
    for flag, word in zip(words, words[1:]):
        if flag == '--data':
            name, _, file = word.partition('=')
            print(name, open(file).read())
    print(sys.stdin.read())
    sys.exit(3)
''' % sys.executable


class Trial:
    """A repository with four crates, of which the program stands on two, and a toolchain."""

    def __init__(self, folder, told):
        self.top, self.tools, self.told, self.count = os.path.join(folder, 'top'), os.path.join(folder, 'tools'), told, 0
        self.rooms = os.path.join(folder, 'rooms')
        os.makedirs(self.tools)
        os.makedirs(self.rooms)
        with open(os.path.join(self.tools, 'rt'), 'w') as file:
            file.write(RT)
        os.chmod(os.path.join(self.tools, 'rt'), 0o755)
        for name in CRATES:
            os.makedirs(os.path.join(self.top, 'crates', name, 'src'))
            self.write('crates/%s/src/lib.rt' % name, '')
        self.write('crates.txt', ''.join('%s: %s\n' % (name, ' '.join(below)) for name, below in CRATES.items()))
        self.write('HANDLES', '')
        shutil.copy(os.path.join(TOP, 'host'), self.top)
        shutil.copytree(os.path.join(TOP, 'crates', 'host_cli', 'texts'), os.path.join(self.top, 'crates', 'host_cli', 'texts'))

    def write(self, name, text):
        with open(os.path.join(self.top, name), 'w') as file:
            file.write(text)

    def start(self, *words, has_tools=True, cwd=None):
        path = self.tools + ':' + os.environ['PATH'] if has_tools else SYSTEM
        return subprocess.Popen([os.path.join(self.top, 'host'), *words], cwd=cwd or self.top, text=True,
                                env={**os.environ, 'PATH': path, 'TMPDIR': self.rooms},
                                stdin=subprocess.PIPE, stdout=subprocess.PIPE, stderr=subprocess.PIPE)

    def run(self, *words, given='', **how):
        started = self.start(*words, **how)
        out, err = started.communicate(given, timeout=PATIENCE)
        return started.returncode, out, err

    def expect(self, what, holds):
        self.count += 1
        if not holds:
            self.told('host: %s' % what)

    def proofs(self):
        """How often each crate was proved."""
        path = os.path.join(self.tools, 'proofs')
        names = open(path).read().split() if os.path.exists(path) else []
        return {name: names.count(name) for name in names}

    def left(self):
        return [name for name in os.listdir(self.top) if name.startswith('.host')]

    def forget(self):
        """Takes away all that was proved."""
        for name in CRATES:
            shutil.rmtree(os.path.join(self.top, 'crates', name, 'out'), ignore_errors=True)
        if os.path.exists(os.path.join(self.tools, 'proofs')):
            os.remove(os.path.join(self.tools, 'proofs'))


ONCE = {'low': 1, 'middle': 1, 'host_cli': 1}


def until(holds):
    """Waits until something holds."""
    end = time.monotonic() + PATIENCE
    while not holds() and time.monotonic() < end:
        time.sleep(0.02)


def try_words(trial):
    """What asks for no proof gets none."""
    for words in (['--help'], ['-h'], ['help'], ['--version'], ['serve', '--help'], ['--unproved', '--help'], ['help', 'certify']):
        status, out, _ = trial.run(*words)
        trial.expect('%s is not answered at once' % words, status == 0 and out and not trial.proofs())
    for words in (['frob'], ['--frob'], ['--unproved', 'frob'], ['--unproved', 'serve', 'm']):
        status, out, err = trial.run(*words)
        trial.expect('%s is not refused at once: %r' % (words, err), status == 2 and err and not out and not trial.proofs())
    if shutil.which('rt', path=SYSTEM) is None:
        status, out, err = trial.run('play', has_tools=False)
        trial.expect('no toolchain is not told: %r' % err, status == 1 and 'toolchain' in err)


def on_a_terminal(trial, words):
    """What an unproved run writes whose standard error is a terminal."""
    ours, theirs = pty.openpty()
    done = subprocess.run([os.path.join(trial.top, 'host'), '--unproved', *words], cwd=trial.top, stdin=subprocess.DEVNULL, stdout=subprocess.PIPE,
                          stderr=theirs, env={**os.environ, 'PATH': trial.tools + ':' + os.environ['PATH']}, text=True, timeout=PATIENCE)
    os.close(theirs)
    os.close(ours)
    return done.stdout


def try_unproved(trial):
    """Files that words name are handed in under a name below the folder, and the standard input where there are none."""
    inside = os.path.join(trial.top, 'inside')
    os.makedirs(inside)
    trial.write('inside/a b', 'one')
    trial.write('up', 'two')
    trial.write('stdin', 'three')
    status, out, err = trial.run('--unproved', 'check', 'a b', '../up', os.path.join(trial.top, 'stdin'), 'none', given='four', cwd=inside)
    due = "['check', 'a b', 'given/2/up', 'given/4/stdin', 'none']\na b one\ngiven/2/up two\ngiven/4/stdin three\n"
    trial.expect('files are not handed in: %r' % out, status == 3 and out.startswith(due))
    trial.expect('it is not told that nothing is proved', 'NOTHING' in err)
    status, out, _ = trial.run('--unproved', 'certify', '--slim', given='five\n' * 100000)
    trial.expect('the standard input is not handed in', status == 3 and out.count('five\n') == 100000)
    for words, due in (([], ['play', '--explain']), (['certify', 'up'], ['certify', 'up', '--explain']), (['assemble', 'up'], ['assemble', 'up'])):
        out = on_a_terminal(trial, words)
        trial.expect('on a terminal %s asks for %r' % (words, out), out.startswith(str(due)))
    started = trial.start('--unproved', 'play', 'wait')
    started.stdin.close()
    until(lambda: os.listdir(trial.rooms))
    started.send_signal(signal.SIGTERM)
    trial.expect('an unproved run that is ended goes on', started.wait(PATIENCE) == 143)
    trial.expect('unproved runs leave %r' % os.listdir(trial.rooms), not os.listdir(trial.rooms))
    trial.expect('an unproved run proves', not trial.proofs())


def try_build(trial):
    """A build proves what the program stands on, and the next call proves nothing; one that fails leaves no program."""
    open(os.path.join(trial.tools, 'fails'), 'w').close()
    status, out, err = trial.run('play')
    trial.expect('a build that fails is taken for one: %r' % out, status == 1 and 'not proved' in err and not trial.left())
    os.remove(os.path.join(trial.tools, 'fails'))
    trial.forget()
    status, out, err = trial.run('certify', 'x', given='given')
    trial.expect('a first call: %r' % out, (status, out) == (7, 'ran certify x\ngiven') and '3 of 3 crates' in err)
    trial.expect('a first call proves %r' % trial.proofs(), trial.proofs() == ONCE)
    status, out, err = trial.run('certify', 'x', given='given')
    trial.expect('a second call: %r' % err, (status, out, err) == (7, 'ran certify x\ngiven', '') and trial.proofs() == ONCE)
    trial.expect('a build leaves %r' % trial.left(), not trial.left())


def try_ended(trial):
    """A build that is ended goes on where it was, and leaves nothing; one that is killed leaves what the next one takes."""
    for number, is_kill in ((signal.SIGINT, False), (signal.SIGTERM, False), (signal.SIGHUP, False), (signal.SIGKILL, True)):
        trial.forget()
        started = trial.start('play')
        until(lambda: trial.proofs())
        started.send_signal(number)
        started.communicate(timeout=PATIENCE)
        if not is_kill:
            trial.expect('signal %d leaves %r' % (number, trial.left()), not trial.left())
            proved = trial.proofs()
            time.sleep(1.2)
            trial.expect('signal %d does not end the proofs' % number, trial.proofs() == proved)
        status, out, _ = trial.run('play')
        trial.expect('behind signal %d: %r, %r' % (number, trial.proofs(), trial.left()), out == 'ran play\n' and trial.proofs() == ONCE and not trial.left())


def try_two(trial):
    """Two at once prove once."""
    trial.forget()
    both = [trial.start('play') for _ in range(2)]
    ends = [started.communicate(timeout=PATIENCE) for started in both]
    trial.expect('two at once answer %r' % ends, [out for out, _ in ends] == ['ran play\n'] * 2)
    trial.expect('two at once prove %r and leave %r' % (trial.proofs(), trial.left()), trial.proofs() == ONCE and not trial.left())
    trial.expect('the second does not tell that it waits: %r' % ends, sum('another ./host' in err for _, err in ends) == 1)


def check(told):
    """Tries the script; gives how many things were looked at."""
    with tempfile.TemporaryDirectory() as folder:
        trial = Trial(folder, told)
        for part in (try_words, try_unproved, try_build, try_ended, try_two):
            part(trial)
        return trial.count


if __name__ == '__main__':
    print('%d looked at' % check(print))
