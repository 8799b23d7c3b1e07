#!/usr/bin/env python3
"""Lists, for an instruction that is being added, the tables that have no row for it yet.

    python3 tests/instruction.py NAME       # the name of its variant, as JEmpty or Copy
    python3 tests/instruction.py            # looks whether each instruction that is there has its rows

First the rows that each instruction has, then those that some have, with when. A row is *silent* where no proof fails without it. The
status is 1 where a row is missing that each instruction has. After the code, `rt check` of each crate says what is left.
"""
import glob
import os
import re
import sys

TOP = os.path.dirname(os.path.dirname(os.path.abspath(__file__)))

# A crate or folder; a file of it; what a row begins with, or has: NAME is the variant, WORD its word; what the row says.
ALWAYS = [
    ('module_code', 'src/instr.rt', r'^    NAME[(,]', 'the variant, with its operands as numbers'),
    ('module_code', 'src/word.rt', r'^    NAME,', 'the variant of `Op`'),
    ('module_code', 'src/word.rt', r'Op::NAME => b"', 'its text'),
    ('module_code', 'src/word.rt', r'^(?!.*(?:Word::Op|=> b")).*\bOp::NAME\b', 'its operands, and whether control goes on'),
    ('module_code', 'src/word.rt', r'Word::Op\(Op::NAME\)', 'the table of words, and its length'),
    ('module_code', 'src/parts.rt', r'Instr::NAME\b.*=> \(Op::NAME', 'its word and operands (`split`)'),
    ('module_code', 'src/parts.rt', r'Op::NAME => ', 'made of them (`make`)'),
    ('module_code', 'specs/Words.antt', r'^op_text op\.NAME ', 'its text'),
    ('module_code', 'specs/Words.antt', r'^signature op\.NAME ', 'its operands'),
    ('module_code', 'specs/Words.antt', r'word\.Op op\.NAME\b', 'the list of words'),
    ('module_code', 'specs/Args.antt', r'^parts (\(instr\.NAME|instr\.NAME)\b', 'its word and operands'),
    ('module_code', 'specs/Args.antt', r'^made op\.NAME ', 'made of them'),
    ('run_model', 'specs/Faults.antt', r'^wants p (\(instr\.NAME|instr\.NAME)\b', 'what it wants, in the order of the tests'),
    ('run_model', 'src/want.rt', r'Instr::NAME\b', 'the same'),
    ('run_model', 'specs/EffectOf.antt', r'^effect_of (\(instr\.NAME|instr\.NAME)\b', 'its effect'),
    ('run_model', 'specs/EffectOf.antt', r'^branch_of (\(instr\.NAME|instr\.NAME)\b', 'where it leads'),
    ('run_model', 'src/effect.rt', r'Instr::NAME\b', 'both; `branch_of` is silent'),
    ('tests', 'differential/reading/texts.py', r"'WORD': '", 'its operands, a letter for each'),
    ('tests', 'differential/reading/*.py', r'def do_WORD\(|\'WORD\'', 'what it does (`steps.py` or `cursors.py`)'),
    ('tests', 'differential/reading/rules.py', r'\brule_WORD\b', 'the rule of the checker'),
    ('tests', 'cases/*.script', r'^ *WORD( |$)', 'a case of it, of each fault, and of two at once'),
    ('docs', 'LANGUAGE.md', r'^\|.*`WORD[ `]', 'its row, and how many there are'),
]

# The same, with when a row is wanted, and whether it is silent.
SOME = [
    ('module_code', 'specs/Tables.antt', r'op\.NAME\b', 'it stands in `main` alone (`is_main_word`)', True),
    ('module_lang', 'src/lines.rt', r'Op::NAME\b', 'the same (`has_main_only`)', True),
    ('module_code', 'src/instr.rt', r'Instr::NAME\b', 'it is a jump (`named_target`)', True),
    ('life_cert', 'proofs/RoundsFormed.antt', r'jump_target .*instr\.NAME\b', 'it is a jump', False),
    ('model_laws', 'proofs/chains/Places.antt', r'instr\.NAME\b', 'it is a jump', False),
    ('life_state', 'proofs/InStateLaws.antt', r'branch_parts \(instr\.NAME\b', 'it tests a brigade, pool or cursor and jumps', False),
    ('life_state', 'proofs/FormRules.antt', r'leads \(instr\.NAME\b', 'the same; and in proofs/WithinRules.antt', False),
    ('interp_state', 'specs/EffectNeeds.antt', r'instr\.NAME\b', 'it jumps by a condition of its own (`instr_by`), or has a new effect', False),
    ('interp_exec', 'specs/InStore.antt', r'keeps_to_store .*instr\.NAME\b', 'it touches the store alone, and is to be fast (may be left out)', True),
    ('interp_exec', 'src/execute_in_store.rt', r'Instr::NAME\b', 'the same', True),
    ('interp_exec', 'proofs/Instructions.antt', r'instr\.NAME\b', 'it reads or clears a pool (`reads_so`, `pool_cleared`)', False),
    ('model_laws', 'proofs/Passed.antt', r'instr\.NAME\b', 'it changes a brigade that it uses (`changed_used`)', False),
    ('model_laws', 'proofs/StepNames.antt', r'instr\.NAME\b', 'it writes into a brigade that an operand names (`step_gives`)', False),
    ('model_laws', 'proofs/InRange.antt', r'instr\.NAME\b', 'it gives a number the value of an operand', False),
    ('model_laws', 'proofs/parts/Alike.antt', r'instr\.NAME\b', 'it takes memory by what stands at a pool (`room_alike`)', False),
    ('model_laws', 'specs/OpenRuns.antt', r'instr\.NAME\b', 'it passes, returns, or has a pool go (`executed`; or proofs/alone/Spared.antt)', True),
    ('life_check', 'proofs/Instructions.antt', r'step_lands .*instr\.NAME\b', '`law_uniform` of proofs/Uniform.antt does not serve it', False),
    ('explain_text', 'src/faulty.rt', r'Op::NAME\b', 'its two brigades have to be different ones', True),
    ('tests', 'unsound.py', r"'WORD'", 'a wrong rule of it, or a row of `UNIFORM`', True),
]

# What a new effect wants beside: not of one instruction, so it is only told.
EFFECT = [
    'run_model: the variant in src/effect.rt; `do_effect`, `names_for`, `pool_names_for` (silent), `room_for` (silent) of specs/Steps.antt; `extent` of specs/Changes.antt',
    'run_model: a definition in specs/Effects.antt or specs/BucketSteps.antt; `instr_with` of specs/EffectOf.antt',
    'model_laws: `may_change` and the ten like it in specs/Laws.antt (a row too many is silent); proofs/Unchanged.antt; `leaves` of proofs/Origins.antt',
    'model_laws: `stays_held` of proofs/CursorNames.antt (`effect_cursors`)',
    'life_state: `after` of specs/Rules.antt and `after_effect` of src/rules.rt; `effect_fits`, `effect_parts`, `after_formed`, `after_within`',
    'interp_exec: an arm of `move_buckets`, `execute_on_store`, `execute_without_files` or `execute_instr`; names of it in interp_state/src/asks.rt',
]


def files(folder, pattern):
    root = os.path.join(TOP, 'crates', folder) if os.path.isdir(os.path.join(TOP, 'crates', folder)) else os.path.join(TOP, folder)
    return glob.glob(os.path.join(root, pattern))


def text_of(path):
    with open(path, encoding='utf-8', errors='replace') as file:
        return file.read()


def has_row(folder, pattern, row, name, word):
    row = row.replace('NAME', name).replace('WORD', re.escape(word))
    return any(re.search(row, text_of(path), re.M) for path in files(folder, pattern))


def word_of(name):
    """The word of the variant, by specs/Words.antt, or by its letters."""
    text = ''.join(text_of(path) for path in files('module_code', 'specs/Words.antt'))
    found = re.search(r'^op_text op\.%s = codes "(\w+)"' % name, text, re.M)
    return found[1] if found else name.lower()


def missing_rows(name):
    return [row for row in ALWAYS if not has_row(*row[:3], name, word_of(name))]


def look_at_all():
    """Reports each row that an instruction of specs/Words.antt has not."""
    text = ''.join(text_of(path) for path in files('module_code', 'specs/Words.antt'))
    told = ['%s: no row in %s/%s' % (name, *row[:2]) for name in re.findall(r'^op_text op\.(\w+)', text, re.M) for row in missing_rows(name)]
    print('\n'.join(told) or 'no faults')
    return int(bool(told))


def main(name):
    word = word_of(name)
    missing = missing_rows(name)
    print('%s, `%s`: %d of %d rows that each instruction has' % (name, word, len(ALWAYS) - len(missing), len(ALWAYS)))
    for folder, pattern, _, what in missing:
        print('  missing   %s/%s: %s' % (folder, pattern, what))
    for folder, pattern, row, when, is_silent in SOME:
        is_there = has_row(folder, pattern, row, name, word)
        print('  %s %s/%s, where %s%s' % ('there    ' if is_there else 'none     ', folder, pattern, when, ' (silent)' if is_silent else ''))
    print('A new effect also wants:')
    for line in EFFECT:
        print('  ' + line)
    return int(bool(missing))


if __name__ == '__main__':
    if len(sys.argv) == 1:
        raise SystemExit(look_at_all())
    if len(sys.argv) != 2 or not re.fullmatch(r'\w+', sys.argv[1]):
        raise SystemExit(__doc__)
    raise SystemExit(main(sys.argv[1]))
