"""The language for authors: filters as httpd and nginx have them, texts with a mistake, random programs.

tests/language/real has filters, NAME.filter, which are compiled and played with NAME.script, or where that is not there with every.script; the
answers are those of NAME.expected. tests/language/mistakes.txt has texts, and what is told of them: a text, then a line `=> ANSWER`.
"""
import glob
import os
import subprocess
import sys
import tempfile

import filters

TOP = os.path.dirname(os.path.dirname(os.path.abspath(__file__)))
FOLDER = os.path.join(TOP, 'tests', 'language')
BUDGET = 'budget 1000000000\n'


def bytes_of(path):
    with open(path, 'rb') as file:
        return file.read()


def check_real(program, tell):
    """Compiles and plays the filters of tests/language/real; gives how many there are."""
    paths = sorted(glob.glob(os.path.join(FOLDER, 'real', '*.filter')))
    for path in paths:
        name = path[:-len('.filter')]
        script = name + '.script'
        if not os.path.exists(script):
            script = os.path.join(FOLDER, 'real', 'every.script')
        texts, told = filters.compiled(program, path)
        if texts is None:
            tell('%s: not compiled: %s' % (os.path.basename(path), told))
            continue
        played = subprocess.run([program], input=(texts + BUDGET + 'checked\n').encode() + bytes_of(script), capture_output=True)
        found, due = played.stdout.splitlines(), bytes_of(name + '.expected').splitlines()
        if found != due:
            at = next((at for at, pair in enumerate(zip(found, due)) if pair[0] != pair[1]), min(len(found), len(due)))
            tell('%s: answer %d is %r, due is %r' % (os.path.basename(path), at + 1, found[at:at + 1], due[at:at + 1]))
    return len(paths)


def mistakes():
    """Texts of filters, and what is told of each."""
    text = ''
    for line in bytes_of(os.path.join(FOLDER, 'mistakes.txt')).decode('latin-1').splitlines(True):
        if line.startswith('=> '):
            yield text, line[3:]
            text = ''
        elif text or line.strip():
            text += line


def check_mistakes(program, tell):
    """Asks for the module of each text with a mistake; gives how many there are."""
    count = 0
    with tempfile.TemporaryDirectory() as folder:
        path = os.path.join(folder, 'mistake.filter')
        for text, due in mistakes():
            count += 1
            with open(path, 'w', encoding='latin-1') as file:
                file.write(text.rstrip('\n') + '\n')
            done = subprocess.run([program, 'compile', path], capture_output=True)
            if (done.stdout.decode('latin-1'), done.returncode) != (due, 1):
                tell('%r: answered %r, due is %r' % (text, done.stdout, due))
            if done.stderr.decode('latin-1') != '%s: %s' % (path, due):
                tell('%r: the standard error has %r' % (text, done.stderr))
    return count


def guards(lines):
    """The places of the lines that a compiler could forget: what comes after the EOS, what is set aside, what a failed pass leaves."""
    words = [line.strip() for line in lines]
    for at, line in enumerate(words):
        if line.startswith(('jsent ', 'aside ')) or (line == 'bclean b0' and words[at - 1] == ':bad'):
            yield at


def check_guards(program, tell):
    """Takes such lines out of what is compiled, one at a time: each module is refused then; gives how many were tried."""
    count = 0
    for path in sorted(glob.glob(os.path.join(FOLDER, 'real', '*.filter'))):
        lines = subprocess.run([program, 'compile', path], capture_output=True).stdout.split(b'\n')
        for at in guards([line.decode('latin-1') for line in lines]):
            count += 1
            done = subprocess.run([program, 'certify'], input=b'\n'.join(lines[:at] + lines[at + 1:]), capture_output=True)
            if done.returncode != 1 or not done.stdout.startswith(b'refused at'):
                tell('%s without line %d, %r: %r' % (os.path.basename(path), at + 1, lines[at], done.stdout[:60]))
    return count


def compare(program, count):
    """Compares random programs with the reading, and breaks some; gives whether something is not as it should be."""
    asked = (('language.py', count), ('broken_texts.py', count))
    folder = os.path.join(TOP, 'tests', 'differential')
    return any([subprocess.run([sys.executable, os.path.join(folder, script), '--programs', str(number), '--program', program]).returncode
                for script, number in asked])
