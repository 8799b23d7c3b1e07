#!/usr/bin/env python3
"""Makes each rule of the checker unsound, and asks the prover for the law of that instruction, which it must refuse.

    python3 tests/unsound.py                    # all of them, the most in four groups: some minutes
    python3 tests/unsound.py pass ret           # the rules of these instructions, each alone

The rules are definitions in crates/life_state/specs; their laws are proved in crates/life_check/proofs. Each change is made in a copy
of these crates, in which life_state is read as source and none of its functions is proved: the rule alone is wrong, not the code.
In a group several rules are wrong at once. None of them is part of another instruction's rule, so the laws of these instructions
must be refused, and all others proved. The rules that others share, and those of one law (ALONE), are tried by themselves.
module_code, run_model and model_laws must be built (rt check in crates/life_check builds them). Each line that is printed
has the instruction, what its rule says wrongly, and what fails.
"""
import os
import re
import shutil
import subprocess
import sys
import tempfile

TOP = os.path.dirname(os.path.dirname(os.path.abspath(__file__)))
RULES = 'Rules.antt'
FACT = 'record s { facts = λ c d. true }'
FORGETS = 'record s { sent = false }'
NUMBER = 'after p (effect.Number n number) s = s'
LABEL = 'after p (effect.Register how q t) s = s'

# The instruction, what is wrong in plain words, the old text of the rule and the new one.
WRONG = [
    ('pcreate', 'the new pool is said to be null',
     'after_pcreate q s = set_pool q only_live s', 'after_pcreate q s = set_pool q only_null s'),
    ('pclear', 'homes of buckets in the pools that go stay alive',
     'else with_homes (dead_where under) (s.brigades b)', 'else s.brigades b'),
    ('pdestroy', 'the pool itself stays live',
     'set_pool q (ended_pool (s.pools q)) (after_pclear p q s)', 'after_pclear p q s'),
    ('label', 'that an EOS was passed is forgotten',
     LABEL, 'after p (effect.Register how q t) s = %s' % FORGETS),
    ('unlabel', 'all cursors are said to differ',
     'after p (effect.Kill q t) s = s', 'after p (effect.Kill q t) s = %s' % FACT),
    ('prelabel', 'the first pool is said to be null',
     LABEL, 'after p (effect.Register how q t) s = set_pool 0 only_null s'),
    ('bcreate', 'the new brigade is said to be null',
     'after_bcreate b s = set_brigade b (holds Empty no_homes) s', 'after_bcreate b s = set_brigade b never_made s'),
    ('bclean', 'cursors at destroyed buckets are kept',
     'after_bclean b s = moved (λ k. emptied b (s.cursors k))', 'after_bclean b s = moved (λ k. s.cursors k)'),
    ('bconcat', 'the homes of the buckets that come are lost',
     'after_concat a b (homes_join (s.brigades a).homes (s.brigades b).homes) s', 'after_concat a b (s.brigades a).homes s'),
    ('bsplit', 'the homes of the buckets that are cut off are lost',
     'holds Empty no_homes else holds v.content v.homes', 'holds Empty no_homes else holds v.content no_homes'),
    ('bpart', 'the cursor is said to differ from all others',
     'after p (effect.PartBrigade b x c) s = after_first c b s',
     'after p (effect.PartBrigade b x c) s = set_cursor c (bucket_or_end b (s.brigades b).content) all_others s'),
    ('bsave', 'that buckets live in the pool of the target is lost',
     'after_concat o b (homes_join (s.brigades o).homes (home_in (pool_of_brigade p o))) s', 'after_concat o b (s.brigades o).homes s'),
    ('jempty', 'a brigade with buckets is said to be empty',
     'some_if (not (is_empty (s.brigades b).content)) s; jump', 'some_if (not (is_empty (s.brigades b).content)) (set_brigade b (holds Empty no_homes) s); jump'),
    ('pass', 'the passed brigade has no mark',
     'record (set_brigade b passed_on s) {', 'record (set_brigade b (holds Empty no_homes) s) {'),
    ('first', 'among what may stand in a brigade, EOS is forgotten',
     'bucket_or_end b NoLateData = InOrEnd b (record { bytes = true; flush = true; eos = true })',
     'bucket_or_end b NoLateData = InOrEnd b (record { bytes = true; flush = true; eos = false })'),
    ('next', 'the cursor is said to differ from all others',
     '(s.brigades b).content) (λ k. k == c) s', '(s.brigades b).content) all_others s'),
    ('jend', 'the two edges are exchanged',
     'next = Some (told c (In b t) s); jump = Some (told c (End b) s)', 'next = Some (told c (End b) s); jump = Some (told c (In b t) s)'),
    ('jkind', 'what is no HEAP bucket has no bytes',
     'not_of_kind test.Heap s = s', 'not_of_kind test.Heap s = record s { bytes = false }'),
    ('unlink', 'the homes of the bucket are lost',
     'Loose (classes_of (s.cursors c)) (homes_at s (s.cursors c))) s', 'Loose (classes_of (s.cursors c)) no_homes) s'),
    ('bdelete', 'other cursors at the bucket are kept',
     'after_bdelete c s = move_bucket c Unset s', 'after_bdelete c s = told c Unset s'),
    ('tail', 'data after an EOS is not noted',
     'tail_content NoLateData s = if s.bytes then Any else NoLateData', 'tail_content NoLateData s = NoLateData'),
    ('head', 'an EOS before data is not noted',
     'head_content b s = if s.eos then (if content_leq b Flushes then NoLateData else Any) else', 'head_content b s = if s.eos then NoLateData else'),
    ('before', 'an EOS before data is not noted',
     'before_eos b = if content_leq b Flushes then NoLateData else Any', 'before_eos b = NoLateData'),
    ('heap', 'the new bucket is said to be a FLUSH',
     'classes_from (HeapText t) s = only_bytes', 'classes_from (HeapText t) s = only_flush'),
    ('immortal', 'the new bucket is said to be an EOS',
     'classes_from (ImmortalText t) s = only_bytes', 'classes_from (ImmortalText t) s = only_eos'),
    ('frombuf', 'the new bucket is said to be an EOS',
     'classes_from HeapBuffer s = only_bytes', 'classes_from HeapBuffer s = only_eos'),
    ('transient', 'that the bucket lives through this call alone is lost',
     'homes_from TransientBuffer s = only_call', 'homes_from TransientBuffer s = no_homes'),
    ('poolb', 'the new bucket is said to be a FLUSH',
     'classes_from (PoolBuffer q) s = only_bytes', 'classes_from (PoolBuffer q) s = only_flush'),
    ('flush', 'the new bucket is said to have bytes',
     'classes_from FlushBucket s = only_flush', 'classes_from FlushBucket s = only_bytes'),
    ('eos', 'the new bucket is said to be a FLUSH',
     'classes_from EosBucket s = only_eos', 'classes_from EosBucket s = only_flush'),
    ('split', 'that a split may be refused is lost',
     'on_condition (condition.NoSplit c x) s t = both_with t', 'on_condition (condition.NoSplit c x) s t = goes_on_with t'),
    ('copy', 'the homes of the copy are lost',
     'homes_from (CopyAt c) s = homes_at s (s.cursors c)', 'homes_from (CopyAt c) s = no_homes'),
    ('aside', 'that the bucket lives in the pool is lost',
     'after_aside c p (Loose t h) s = move_bucket c (Loose t (home_in p)) s', 'after_aside c p (Loose t h) s = move_bucket c (Loose t no_homes) s'),
    ('read', 'the read cursor is said to differ from all others',
     'after_read c s = set_cursor 8 (s.cursors c) (known s c) s', 'after_read c s = set_cursor 8 (s.cursors c) all_others s'),
    ('len', 'all cursors are said to differ',
     NUMBER, 'after p (effect.Number n number) s = %s' % FACT),
    ('get', 'that there may be no byte is lost',
     'on_condition (condition.NoByte x) s t = both_with t', 'on_condition (condition.NoByte x) s t = goes_on_with t'),
    ('put', 'that the buffer may be full is lost',
     'on_condition (condition.NoRoom x) s t = both_with t', 'on_condition (condition.NoRoom x) s t = goes_on_with t'),
    ('clearbuf', 'that an EOS was passed is forgotten',
     'after p effect.ClearBuffer s = s', 'after p effect.ClearBuffer s = %s' % FORGETS),
    ('set', 'the first pool is said to be null',
     NUMBER, 'after p (effect.Number n number) s = set_pool 0 only_null s'),
    ('add', 'that an EOS was passed is forgotten',
     NUMBER, 'after p (effect.Number n number) s = %s' % FORGETS),
    ('sub', 'the first brigade is said to be null',
     NUMBER, 'after p (effect.Number n number) s = set_brigade 0 never_made s'),
    ('jlt', 'the jump is lost',
     'on_condition (condition.Less n x) s t = both_with t', 'on_condition (condition.Less n x) s t = goes_on_with t'),
    ('jeq', 'the next instruction is said not to be reached',
     'on_condition (condition.Equal n x) s t = both_with t', 'on_condition (condition.Equal n x) s t = record { next = None; jump = Some t }'),
    ('jnull', 'a pool that is gone is said to be null',
     'some_if ((s.pools q).gone || (s.pools q).live)', 'some_if (s.pools q).live'),
    ('jsent', 'where an EOS was passed, that is forgotten',
     'jump = some_if s.sent s', 'jump = some_if s.sent (%s)' % FORGETS),
    ('leave', 'that an EOS was passed is forgotten',
     'after p effect.Leave s = s', 'after p effect.Leave s = %s' % FORGETS),
    ('jump', 'that an EOS was passed is forgotten',
     'led JumpAlways s t = record { next = None; jump = Some t }', 'led JumpAlways s t = record { next = None; jump = Some (record t { sent = false }) }'),
    ('ret', 'a usable brigade may keep a bucket of the call: the need is dropped',
     'need s WReturn = if any_below 8 (λ b. keeps_call (s.brigades b)) then Some F6 else None', 'need s WReturn = None'),
]
# The instructions that one law serves (law_uniform), with their operands.
UNIFORM = {
    'heap': ('(c t : ℕ)', '(instr.Heap c t)'),
    'immortal': ('(c t : ℕ)', '(instr.Immortal c t)'),
    'frombuf': ('(c : ℕ)', '(instr.FromBuf c)'),
    'transient': ('(c : ℕ)', '(instr.Transient c)'),
    'poolb': ('(c : ℕ) (q : PoolRef)', '(instr.PoolB c q)'),
    'copy': ('(d c : ℕ)', '(instr.Copy d c)'),
    'flush': ('(c : ℕ)', '(instr.Flush c)'),
    'eos': ('(c : ℕ)', '(instr.Eos c)'),
    'len': ('(n c : ℕ)', '(instr.Len n c)'),
    'get': ('(n : ℕ) (x : Value) (l : ℕ)', '(instr.Get n x l)'),
    'put': ('(x : Value) (l : ℕ)', '(instr.Put x l)'),
    'clearbuf': ('', 'instr.ClearBuf'),
    'set': ('(n : ℕ) (x : Value)', '(instr.Set n x)'),
    'add': ('(n : ℕ) (x : Value)', '(instr.Add n x)'),
    'sub': ('(n : ℕ) (x : Value)', '(instr.Sub n x)'),
    'jlt': ('(n : ℕ) (x : Value) (l : ℕ)', '(instr.JLt n x l)'),
    'jeq': ('(n : ℕ) (x : Value) (l : ℕ)', '(instr.JEq n x l)'),
    'leave': ('', 'instr.Leave'),
    'jump': ('(l : ℕ)', '(instr.Jump l)'),
}
# Rules that are wrong in a part that other instructions share, and those of one law: others may be refused too.
ALONE = ('pclear', 'first', 'label', 'prelabel') + tuple(UNIFORM)
GROUPS = 4
LAW = re.compile(r'^ *pub (law_(\w+)) : (?:\{lives : Home → Type 0\} )?(?:(\(.*?) )?→ LawOf lives (\(instr\.[^)]*\)|instr\.\w+)$', re.M)
DECLARED = re.compile(r'^ *(?:pub )?([a-z]\w*) : ')
IMPORT = re.compile(r'^use Rattle\.life_check\.proofs\.(\w+)\.\{([^}]*)\}', re.M)
WORD = re.compile(r'\b[a-z]\w*')
ERROR = re.compile(r'^(?:\./)?(\S+?):\d+:\d+: error: `([^`]*)`: ', re.M)
UNREAD = re.compile(r'^(?:\./|\.\./life_state/)?(?:specs|src)/\S+: error', re.M)
ANSWER = re.compile(r'^fn life_check::laws::law_(\w+): (.*)$', re.M)


def text_of(path):
    with open(path, encoding='utf-8') as file:
        return file.read()


def write(path, text):
    os.makedirs(os.path.dirname(path), exist_ok=True)
    with open(path, 'w', encoding='utf-8') as file:
        file.write(text)


class Law:
    """The law of an instruction: the file of its proof, the operands, and the instruction with them."""

    def __init__(self, file, source, word, operands, instruction, proof=''):
        self.file, self.word, self.name = file, word, 'law_' + word
        self.operands, self.instruction = operands, instruction
        self.proof = proof or self.name
        self.types = set(re.findall(r'\b[A-Z]\w*', self.operands))
        self.imports = [re.search(r'^use \S+\.\{[^}]*\b%s\b[^}]*\}' % name, source, re.M)[0] for name in sorted(self.types)]

    def names(self):
        return ' '.join(re.findall(r'\(([^:]*) :', self.operands))

    def given(self):
        """What its proof is given: the operands, or the instruction and that the law serves it."""
        return self.names() if self.proof == self.name else self.instruction + ' tt tt'

    def statement(self):
        """As a definition."""
        operands = ' ' + self.operands if self.operands else ''
        return 'abbrev pub Of_%s : Type 0\nOf_%s = (lives : Home → Bool)%s → LawOf (LivesByTest lives) %s\n' % (
            self.word, self.word, operands, self.instruction)

    def answer(self):
        """The proof file of the function that has the law for its contract."""
        names = ('lives ' + self.names()).strip()
        return ('use Rattle.module_code.specs.declared.instr.Instr.TheVariants as instr\nuse Rattle.life_check.specs.Soundness.{LivesByTest}\nuse Rattle.life_check.proofs.%s.{%s}\n'
                'use Rattle.life_check.proofs.laws.%s.Goals as goal\n\npub returns : goal.returns\n'
                'returns c = λ %s. %s {lives = LivesByTest lives} %s\n') % (
            self.file, self.proof, self.name, names, self.proof, self.given())


def laws(proofs):
    """The laws of all instructions, by their words."""
    found = {}
    for name in sorted(os.listdir(proofs)):
        if name.endswith('.antt'):
            source = text_of(os.path.join(proofs, name))
            for law in LAW.finditer(source):
                found[law[2]] = Law(name[:-len('.antt')], source, law[2], law[3] or '', law[4])
            if name == 'Uniform.antt':
                source += text_of(os.path.join(proofs, 'Makers.antt'))
                found.update((word, Law('Uniform', source, word, *row, 'law_uniform')) for word, row in UNIFORM.items())
    return found


class Proofs:
    """What each declaration of the files of proofs names, by files and names."""

    def __init__(self, folder):
        self.named, self.imported = {}, {}
        for name in sorted(os.listdir(folder)):
            if name.endswith('.antt'):
                self.read(name[:-len('.antt')], text_of(os.path.join(folder, name)))

    def read(self, file, source):
        """Takes in a file. (What is declared within a `where` counts as a declaration of its own.)"""
        for other, names in IMPORT.findall(source):
            self.imported.update(((file, name), (other, name)) for name in WORD.findall(names))
        declared = ''
        for line in source.split('\n'):
            here = DECLARED.match(line)
            declared = here[1] if here else declared
            self.named.setdefault((file, declared), set()).update(WORD.findall(line))

    def reached_from(self, place):
        """The declarations that a declaration comes to, by files and names."""
        reached, due = {place}, [place]
        while due:
            file, name = due.pop()
            for word in self.named.get((file, name), ()):
                new = self.imported.get((file, word), (file, word))
                if new in self.named and new not in reached:
                    reached.add(new)
                    due.append(new)
        return reached


class Copy:
    """A copy of the crates in which each law is the contract of a function of its own."""

    def __init__(self, room):
        self.room, self.crates = room, os.path.join(room, 'crates')
        for crate in ('module_code', 'run_model', 'model_laws'):
            shutil.copytree(os.path.join(TOP, 'crates', crate), os.path.join(self.crates, crate), copy_function=self.link)
        for crate in ('life_state', 'life_check'):
            shutil.copytree(os.path.join(TOP, 'crates', crate), os.path.join(self.crates, crate), ignore=shutil.ignore_patterns('out', 'must-fail'))
        write(os.path.join(room, 'crates.txt'), 'module_code:\nrun_model: module_code thiserror\nmodel_laws: module_code run_model\n'
              'life_check: module_code run_model model_laws thiserror\n')
        shutil.copy(os.path.join(TOP, 'HANDLES'), room)
        self.check = os.path.join(self.crates, 'life_check')
        self.laws = laws(os.path.join(self.check, 'proofs'))
        self.proofs = Proofs(os.path.join(self.check, 'proofs'))
        self.state_laws()
        doc = subprocess.run(['rt', 'doc'], stdout=subprocess.PIPE, check=True, text=True).stdout
        self.core = os.path.join(os.path.dirname(doc.strip()), 'rlibs', 'core.rlib')

    @staticmethod
    def link(source, to, **_):
        """Files of out/ are linked, for they are large."""
        return os.link(source, to) if '/out/' in source else shutil.copy2(source, to)

    def state_laws(self):
        """Puts a function for each law in the place of the functions of laws.rt."""
        shutil.rmtree(os.path.join(self.check, 'proofs', 'laws'))
        imports = sorted({line for law in self.laws.values() for line in law.imports})
        head = ['use Rattle.std.specs.Prelude.{ℕ, Bool}', 'use Rattle.module_code.specs.declared.instr.Instr.TheVariants as instr',
                'use Rattle.run_model.specs.declared.bucket.Home.{Home}', 'use Rattle.life_check.specs.Soundness.{LivesByTest, LawOf}']
        statements = [law.statement() for law in self.laws.values()]
        write(os.path.join(self.check, 'specs', 'OneLaw.antt'), '\n'.join(head + imports) + '\n\n' + '\n'.join(statements))
        with open(os.path.join(self.check, 'specs', 'Lib.antt'), 'a', encoding='utf-8') as file:
            file.write('\npub mod OneLaw\n')
        words = ', '.join('Of_' + word for word in self.laws)
        functions = ['pub fn %s()\n    ensures { Of_%s }\n{}\n' % (law.name, law.word) for law in self.laws.values()]
        write(os.path.join(self.check, 'src', 'laws.rt'), 'ghost use Rattle.life_check.specs.OneLaw.{%s};\n\n%s' % (words, '\n'.join(functions)))
        for law in self.laws.values():
            write(os.path.join(self.check, 'proofs', 'laws', law.name, 'Answers.antt'), law.answer())

    def prove(self, only):
        """What a check of these functions alone prints, and whether they are proved."""
        command = ['rt', 'check', '--jobs', '1', '--only', only, '--extern', 'core=' + self.core,
                   '--lib', 'life_state:core,std,module_code,run_model=../life_state/src/lib.rt']
        done = subprocess.run(command, cwd=self.check, stdin=subprocess.DEVNULL, stdout=subprocess.PIPE, stderr=subprocess.STDOUT, text=True, errors='replace')
        return done.stdout, done.returncode

    def tell(self, law, told):
        """Where a law is refused, in words. told: what a check of it printed, and maybe of others."""
        reached = self.proofs.reached_from((law.file, law.proof))
        refused = dict.fromkeys((path[len('proofs/'):-len('.antt')], name) for path, name in ERROR.findall(told))
        places = [place for place in refused if place in reached]
        nearest = [place for place in places if place == (law.file, law.proof)] or [place for place in places if place[0] == law.file] or places
        names = ['`%s`%s' % (name, '' if file == law.file else ' of `%s`' % file) for file, name in nearest]
        return '`%s`: %s' % (law.file, ', '.join(names or ['?']))

    def try_wrong(self, rows, only):
        """Prints what comes of these wrong rules, all at once; gives how many are not refused as they must be."""
        path = os.path.join(self.crates, 'life_state', 'specs', RULES)
        right = text = text_of(path)
        for word, _, old, new in rows:
            if text.count(old) != 1:
                raise SystemExit('%s: the old text is there %d times' % (word, text.count(old)))
            text = text.replace(old, new)
        write(path, text)
        told, status = self.prove(only)
        write(path, right)
        write(os.path.join(self.room, 'told', rows[0][0]), told)
        answers = {word: answer == 'proved' for word, answer in ANSWER.findall(told)}
        bad = 0
        for word, wrong, _, _ in rows:
            well = status == 1 and answers.get(word) is False and not UNREAD.search(told)
            bad += not well
            print('| `%s` | %s | %s |' % (word, wrong, self.tell(self.laws[word], told) if well else 'NOT REFUSED, see %s/told' % self.room), flush=True)
        wrong = {row[0] for row in rows}
        for word in sorted(answers):
            if word not in wrong and not answers[word] and not wrong & set(ALONE):
                print('%s is refused, though its rule is right' % word)
                bad += 1
        return bad


def main():
    words = sys.argv[1:]
    copy = Copy(tempfile.mkdtemp(prefix='unsound-'))
    rows = [row for row in WRONG if not words or row[0] in words]
    print('%d laws, %d wrong rules, in %s' % (len(copy.laws), len(rows), copy.room), flush=True)
    told, status = copy.prove('laws')
    if status:
        print(told + 'with the rules as they are, this is not proved')
        return 1
    alone = [row for row in rows if words or row[0] in ALONE]
    bad = sum(copy.try_wrong([row], 'laws::' + copy.laws[row[0]].name) for row in alone)
    others = [row for row in rows if row not in alone]
    for start in range(GROUPS if others else 0):
        bad += copy.try_wrong(others[start::GROUPS], 'laws')
    print('%d wrong rules, %d not refused as they must be' % (len(rows), bad))
    if not bad:
        shutil.rmtree(copy.room)
    return 1 if bad else 0


if __name__ == '__main__':
    raise SystemExit(main())
