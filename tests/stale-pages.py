#!/usr/bin/env python3
"""stale-pages.py ROOM: would pages.py notice a page that has gone stale? A copy of the tree is spoiled, a few places at a time, and each must be noticed by
the check that it is for; what is no fault must pass."""
import os, re, shutil, sys
import pages

spoiled = []  # of the copy at hand: the file, what it was, and what must be said
tried = 0


def spoil(path, change, phrase=None):
    """The file is changed so, and pages.py is to say the phrase; where there is none, nothing."""
    before = pages.read(path) if os.path.exists(path) else None
    after = change(before or '')
    if after == before:
        sys.exit('stale-pages.py: nothing to spoil in %s' % path)
    with open(path, 'w', encoding='utf-8') as file:
        file.write(after)
    spoiled.append((path, before, phrase))


def noticed():
    """Whether each was; then all is as it was."""
    global tried
    said = pages.check()[0]
    phrases = [phrase for _, _, phrase in spoiled if phrase]
    for path, before, phrase in reversed(spoiled):
        if phrase and not any(phrase in one for one in said) or not phrases and said:
            sys.exit('stale-pages.py: %s is spoiled, and what is said is not "%s" but:\n%s' % (path, phrase or '', '\n'.join(said)))
        if before is None:
            os.remove(path)
        else:
            with open(path, 'w', encoding='utf-8') as file:
                file.write(before)
    tried += len(spoiled)
    spoiled.clear()


def more(line):
    return lambda text: text + '\n' + line + '\n'


def earlier(line):
    """At the end of the last note but one."""
    return lambda text: (line + '\n\n## ').join(text.rsplit('\n## ', 1))


def quotations():
    block = next(text for _, block, text in pages.paragraphs('docs/NOTATION.md') if block and pages.SOURCE.search(text))
    spoil('docs/NOTATION.md', lambda text: text.replace(block, block + ' other'), 'docs/NOTATION.md quotes what no file of crates/ has')
    spoil('README.md', more('\n    pub fn no_such_function(s: &[u8]) -> bool'), 'README.md quotes what no file of crates/ has')
    noticed()
    spoil('README.md', more('\n<!-- shape -->\n\n    pub fn no_such_function(s: &[u8]) -> bool'))
    noticed()


def names():
    for name in ('noSuchDefinition', 'no_such_function', 'no-such-theorem', 'no_such_definition.now', 'calling::no_such_function', 'demands/NoSuch', 'demands/proofs/NoSuch.antt',
                 'examples/no-such.c', 'make nosuch', 'make test NOSUCH=1', 'NOSUCH=1', '--no-such-option', 'serve of nothing'):
        spoil('docs/DECISIONS.md', more('\n`%s`' % name), 'names `%s`, and there is no such thing' % name)
    spoil('docs/PROVED.md', more('\n`demand_1_number`, `_nosuch`'), 'names `demand_1_nosuch`')
    spoil('docs/DECISIONS.md', more('\n`calling/Serve`: `serve`, `block_of`'), 'says that `block_of` stands in `calling/Serve`')
    spoil('docs/DECISIONS.md', more('\n`serve` and `block_of` in `calling/specs/Serve.antt`'), 'says that `block_of` stands in `calling/specs/Serve.antt`')
    spoil('docs/DECISIONS.md', more('\n`calling`: `seal`'), 'says that `seal` stands in `calling`')
    spoil('docs/PROVED.md', lambda text: text.replace('| `table` | `', '| `table` | `Serve`, `'), 'says that specs/ of `table` has `Serve`')
    spoil('man/answer.1', more('.Fn no_such_function'), 'has `no_such_function`')
    spoil('man/answer.1', more('.Fl -nosuch'), 'has `--nosuch`')
    noticed()


def maps():
    page = 'docs/ARCHITECTURE.md'
    for module in sorted(set(pages.STATEMENTS) - pages.WITH_STEPS):
        name = 'no-such-theorem-of-' + module.replace('/', '-')
        spoil('crates/%s.antt' % module.replace('/', '/proofs/'), more('pub %s : ℕ' % name), 'does not name `%s` of `%s`' % (name, module))
    spoil(page, lambda text: re.sub(r'(?m)^(\| "There and back .*\|)[^|]*\|$', r'\1 |', text), 'has no theorem, and does not say why')
    spoil(page, lambda text: re.sub(r'(?m)^(\| "UAR\." )\|[^|]*\|', r'\1| `calling/Serve`: `serve` |', text), 'goes by a contract, and no function there')
    spoil('crates/table/proofs/NoSuch.antt', more('-- It is proved,\n-- as theorems about `serve`.'), 'does not have the page of statements table/NoSuch')
    spoil('docs/PROVED.md', lambda text: text.replace('\n## Trusted', '\n`counting/proofs/Totals.antt`\n\n## Trusted'), 'does not say whether it is a page of')
    noticed()
    spoil(page, lambda text: re.sub(r'(?m)^(\| "There and back .*\|)[^|]*\|$', r'\1 `serve` |', text), 'and no file of proofs/ declares it')
    noticed()


def wrong_answers():
    edit = min(pages.Tree().edits)
    spoil('docs/PROVED.md', lambda text: text.replace(edit.rpartition('/')[2], 'no_such.edit'), 'names `%s/no_such.edit`' % edit.rpartition('/')[0])
    spoil('crates/table/must-fail/no_such.edit', more(''), 'does not name the must-fail edit `table/must-fail/no_such.edit`')
    for crate in pages.WRONG:
        name = 'no_such_%s_fails' % crate
        spoil('crates/%s/proofs/Lib.antt' % crate, more('%s : ℕ' % name), 'wrong server or reporter of `%s`' % name)
    noticed()


def landings():
    page = 'docs/LANDINGS.md'
    spoil(page, more('\n## A landing\n\n`noSuchDefinition` is new.'), 'does not tell the check\'s time in the note "A landing"')
    spoil(page, more('And `no_such_function`.'), 'docs/LANDINGS.md names `no_such_function`')
    noticed()
    spoil(page, more('\nGone: `noSuchDefinition`, which was `no_such_function`.'))
    spoil(page, earlier('\n`noSuchDefinition` is new.'))
    noticed()


room = os.path.abspath(sys.argv[1])
os.chdir(os.path.join(os.path.dirname(os.path.abspath(__file__)), '..'))
shutil.rmtree(room, ignore_errors=True)
shutil.copytree('.', room, symlinks=True, ignore=shutil.ignore_patterns('.git', 'target', 'out', 'stdin', 'stdout', '__pycache__'))
os.chdir(room)
if pages.check()[0]:
    sys.exit('stale-pages.py: there are faults before anything is spoiled; pages.py says which')
for part in (quotations, names, maps, wrong_answers, landings):
    part()
print('stale-pages.py: %d places, each noticed or passed as it should be' % tried)
