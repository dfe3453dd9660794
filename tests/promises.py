#!/usr/bin/env python3
"""promises.py [FOLDER]: holds the Sh server to "above the first and seeing only its promises", by crates.txt and by every `use` and path in its crates.

The ground that both servers stand on lies below the first and is open to both. Of the crates that make the first server, which are what `ndushavire` uses
and the ground does not have, the second's last library alone may use two, and of them only definitions that promises are written in, the word's form, and
`ndushavire_check`, by its promise: no proof, and nothing of choices, decisions, effects and answers. Then the same with one forbidden line put in after the
other, each of which must be found. Status 0 if all is so, 1 if not."""
import pathlib, re, sys

FIRST, SECOND, FOR_C = 'ndushavire', 'ndushavire_sh', 'ndushavire_sh_c'
OWN = ['markup', 'user_data', 'sh', SECOND, FOR_C]  # the second server's crates; the last exports to C what the last but one has
# Bytes and blocks, records and look-ups, AVPs, reading in a dialect, the pen, Failed-AVP, what every call refuses and what every answer has.
GROUND = 'octets blocks record table lookup parts diameter reading requests failed pen refusals envelope'.split()
# What the second's last crate may name of the first: modules of definitions, and in code the word's form and the check.
PROMISES = {'ndushavire.specs.Promise', 'ndushavire.specs.Word', 'ndushavire.specs.Reads', 'calling.specs.Call'}
CODE = {'ndushavire::word', 'ndushavire::ndushavire_check'}
ENTRIES = ['ndushavire_sh_decide']


def crates_in(text):
    lines = (line.split('#')[0].split(':') for line in text.splitlines())
    return {line[0].split()[0]: line[1].split() for line in lines if len(line) == 2}


def below(crates, name):
    """All that a crate rests on."""
    found, rest = set(), [name]
    while rest:
        for other in crates.get(rest.pop(), []):
            if other not in found:
                found.add(other)
                rest.append(other)
    return found


def plain(text):
    """Without comments, strings and single characters, of which one may be a quote."""
    text = re.sub(r"b?'(\\.|[^'\\\n])'", "''", text)
    return re.sub(r'(?m)//.*$|(^|\s)--(\s.*)?$', ' ', re.sub(r'b?"(\\.|[^"\\])*"', '""', text))


def named(text, first):
    """What a file names of the first server's crates, however it does: in definitions and proofs by the crate's folder and what follows; in code by the crate's
    name with what follows, in a `use` also alone."""
    modules = {crate + rest for crate, rest in re.findall(r'\bRattle\.(\w+)((?:\.\w+)*)', text) if crate in first}
    modules |= {'Rattle as a whole' for _ in re.findall(r'\bRattle\b(?!\.\w)', text)}
    crate = r'(?<![\w.])(%s)\b' % '|'.join(sorted(first))
    paths = {name + '::' + rest for name, rest in re.findall(crate + r'\s*::\s*(\w+|\*|\{)', text)}
    paths |= {name for use in re.findall(r'\buse\s+([^;]*);', text) for name in re.findall(crate + r'(?!\s*::)', use)}
    return modules, paths


def faults(crates_text, files):
    """What is against the rule, as sentences. FILES are the second server's, by path."""
    crates, wrong = crates_in(crates_text), []
    first = ({FIRST} | below(crates, FIRST)) - set(GROUND)
    for name in OWN + GROUND + [FIRST]:
        if name not in crates:
            wrong.append('there is no crate %s' % name)
    for name in GROUND:
        for other in sorted(below(crates, name) & (first | set(OWN))):
            wrong.append('%s is ground and rests on %s' % (name, other))
    for name in sorted(first & set(OWN)):
        wrong.append('the first server rests on %s' % name)
    for name in OWN:
        allowed = {SECOND} if name == FOR_C else set(GROUND + OWN) | ({'calling', FIRST} if name == SECOND else set())
        for other in sorted(set(crates.get(name, [])) - allowed):
            wrong.append('%s lists %s' % (name, other))
    for path, text in sorted(files.items()):
        crate, text = path.split('/')[1], plain(text)
        modules, paths = named(text, first)
        for module in sorted(modules):
            if crate != SECOND or module not in PROMISES:
                wrong.append('%s names %s' % (path, module))
        for name in sorted(paths) if path.endswith('.rt') else []:
            if crate != SECOND or name not in CODE:
                wrong.append('%s names %s' % (path, name))
    for of, entries in [(name, ENTRIES if name in (SECOND, FOR_C) else []) for name in OWN]:
        exported = sorted(name for path, text in files.items() if path.endswith('.rt') and path.split('/')[1] == of
                          for name in re.findall(r'#\[unsafe\(no_mangle\)\]\s*pub extern "C" fn (\w+)', text))
        if exported != entries:
            wrong.append('%s exports %s' % (of, ' '.join(exported) or 'nothing'))
    return wrong


def noticed(crates_text, files):
    """Each forbidden thing put in: those that are not found."""
    serve, entry, answer = ('crates/%s/specs/Serve.antt' % SECOND, 'crates/%s/src/lib.rt' % SECOND, 'crates/sh/src/answer.rt')
    for_c = 'crates/%s/src/lib.rt' % FOR_C
    into = lambda path, line: (crates_text, {**files, path: files[path] + '\n' + line + '\n'})
    listed = lambda name, more: (re.sub(r'(?m)^(%s(?: staticlib)?:.*)$' % name, r'\1 ' + more, crates_text), files)
    tried = {
        'a proof of the first server': into(serve, 'use Rattle.calling.proofs.Sound.{kept}'),
        'a proof of its entry': into('crates/%s/proofs/Calls.antt' % SECOND, 'use Rattle.ndushavire.proofs.Word.{parts}'),
        'a decision': into(serve, 'use Rattle.deciding.specs.Decide.{decide}'),
        'an answer': into('crates/sh/specs/Answer.antt', 'use Rattle.answering.specs.Answer.{answer_bytes}'),
        'a choice': into('crates/sh/specs/Tell.antt', 'use Rattle.choices.specs.Choice.{Choice}'),
        'a promise, below the last crate': into('crates/sh/specs/Tell.antt', 'use Rattle.ndushavire.specs.Promise.{CheckPromise}'),
        'all of the first server': into(serve, 'use Rattle.ndushavire as first'),
        'all crates': into(serve, 'use Rattle as all'),
        'some crates at once': into(serve, 'use Rattle.{calling.specs.Serve.{serve}}'),
        'a definition, in code': into(entry, 'ghost use Rattle.calling.specs.Serve.{serve};'),
        'another entry, called': into(entry, 'fn more() { ndushavire::ndushavire_check_vectors(v); }'),
        'another module in code': into(entry, 'use deciding::call;'),
        'a whole crate in code': into(entry, 'use calling;'),
        'a whole crate, passed on': into(entry, 'pub use calling;'),
        'a whole crate by another name': into(entry, 'use calling as first;'),
        'several at once': into(entry, 'use ndushavire::{word, ndushavire_decide};'),
        'all names of a crate': into(entry, 'use calling::*;'),
        'a path from the root': into(entry, 'fn more() { crate::deciding::call(); }'),
        'another module, behind a quote': into('crates/markup/src/lib.rt', "const MORE: u8 = b'\"';\nuse deciding::call;\nconst LAST: u8 = b'\"';"),
        'definitions of the first server as one': into(serve, 'use Rattle.calling.specs as first'),
        'a type of its code': into(serve, 'use Rattle.calling.specs.declared.Came.{Came}'),
        'the check, called below the last crate': into(answer, 'fn more() { ndushavire::ndushavire_check(t, p); }'),
        'a second entry': into(entry, '#[unsafe(no_mangle)]\npub extern "C" fn ndushavire_sh_more() {}'),
        'a second entry for C': into(for_c, '#[unsafe(no_mangle)]\npub extern "C" fn ndushavire_sh_more() {}'),
        'the check, called for C': into(for_c, 'fn more() { ndushavire::ndushavire_check(t, p); }'),
        'an entry below': into(answer, '#[unsafe(no_mangle)]\npub extern "C" fn ndushavire_sh_more() {}'),
        'deciding, listed': listed(SECOND, 'deciding'),
        'calling, listed for C': listed(FOR_C, 'calling'),
        'calling, listed below the last crate': listed('sh', 'calling'),
        'vectors, listed': listed('user_data', 'vectors'),
        'ground that rests on a decision': listed('envelope', 'choices'),
        'ground that rests on the second server': listed('reading', 'markup'),
        'a first server that rests on the second': listed('reporting', 'user_data'),
    }
    return [what for what, (text, changed) in tried.items() if not faults(text, changed)], len(tried)


def main():
    top = pathlib.Path(sys.argv[1] if len(sys.argv) > 1 else pathlib.Path(__file__).parent.parent)
    crates_text = (top / 'crates.txt').read_text()
    files = {str(path.relative_to(top)): path.read_text() for name in OWN for part in ('src', 'specs', 'proofs')
             for path in sorted((top / 'crates' / name / part).rglob('*')) if path.suffix in ('.rt', '.antt')}
    wrong = faults(crates_text, files)
    for sentence in wrong:
        print('promises.py: %s' % sentence, file=sys.stderr)
    if wrong:
        return 1
    missed, tried = noticed(crates_text, files)
    for what in missed:
        print('promises.py: not noticed: %s' % what, file=sys.stderr)
    if not missed:
        print('promises.py: %d files of %d crates see of the first server its promises alone; each of %d things put in is noticed' % (
            len(files), len(OWN), tried))
    return bool(missed)


if __name__ == '__main__':
    sys.exit(main())
