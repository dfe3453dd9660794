#!/usr/bin/env python3
"""quick.py PART..: what a change since BASE (the commit at which this branch left main) can have touched, in minutes, and no more.

The crates that changed and those directly above them are proved, the edits of the changed ones are tried, and those PARTs of make test are run whose
files changed. A part that needs an archive is left out, by name, while an archive would have to be proved first.
This is not the verdict: a definition that changed can break what stands two storeys above."""
import fnmatch, functools, glob, os, re, subprocess, sys

ROOM = 'target/quick'
LIBRARIES = ['ndushavire_c', 'ndushavire_sh_c']
ARCHIVES = ['target/staticlib/lib%s.a' % name[:-len('_c')] for name in LIBRARIES]


class Failed(Exception):
    pass


def said(*words, **more):
    return subprocess.run(words, stdout=subprocess.PIPE, stderr=subprocess.DEVNULL, universal_newlines=True, **more).stdout


def run(*words, folder='.'):
    told = ' '.join(words) + (' in ' + folder) * (folder != '.')
    print('make quick: ' + told, flush=True)
    if subprocess.run(words, cwd=folder).returncode != 0:
        raise Failed(told)


def base():
    for main in (os.environ.get('BASE'), 'main', 'origin/main', 'HEAD'):
        commit = main and said('git', 'merge-base', 'HEAD', main).strip()
        if commit:
            return commit
    raise Failed('no commit to compare with: BASE=COMMIT names one')


def changed_since(commit):
    files = said('git', 'diff', '--name-only', commit) + said('git', 'ls-files', '--others', '--exclude-standard')
    return sorted(set(files.split('\n')) - {''})


# ---- crates

def crates_in(text):
    lines = (line.split('#')[0] for line in text.split('\n'))
    return {head.split()[0]: below.split() for head, below in (line.split(':') for line in lines if ':' in line)}


def changed_crates(crates, files, commit):
    """The crates to prove, and those whose edits are to be tried."""
    before = crates_in(said('git', 'show', commit + ':crates.txt'))
    proved = {name for name in crates if crates[name] != before.get(name)}
    tried = set()
    for file in files:
        name, _, part = file[len('crates/'):].partition('/')
        if file.startswith('crates/') and name in crates:
            (tried if part.startswith('must-fail/') else proved).add(name)
    return proved, {name for name in tried | proved if glob.glob('crates/%s/must-fail/*.edit' % name)}


def directly_above(crates, names):
    """A crate lists what it uses; it stands directly on those that none of the others uses."""
    return {name for name, below in crates.items() for one in below
            if one in names and not any(one in crates.get(other, ()) for other in below)}


def below(crates, name):
    """A crate and all that it stands on."""
    return {name}.union(*(below(crates, one) for one in crates.get(name, ())))


def check(crates, names):
    """Each of these, lowest first; rt builds what lies below."""
    for name in sorted(names, key=lambda name: (len(below(crates, name)), name)):
        run('rt', 'check', folder='crates/' + name)


# ---- parts of make test

@functools.lru_cache(maxsize=None)
def recipe(part, makefile='Makefile'):
    return said('make', '-n', '-B', '-f', makefile, 'SEED=1', part)


class Tree:
    """The files around the crates, to be found by path, by name, by their folder, or by a pattern."""

    def __init__(self, files):
        self.found = {}
        for file in files:
            parts = file.split('/')
            folders = ['/'.join(parts[:n]) for n in range(1, len(parts))]
            for word in [file] + [parts[-1]] * ('.' in parts[-1]) + [folder for folder in folders if folder != 'tests']:
                self.found.setdefault(word, set()).add(file)
        self.files = files

    def named_in(self, text):
        words = {word.strip('./') for word in re.findall(r'[A-Za-z0-9_.*/+-]+', text)}
        patterns = [word for word in words if '*' in word and len(word) > 2 and re.search('[a-z]', word)]
        return set().union(*(self.found.get(word, ()) for word in words), *(self.found.get(os.path.basename(word), ()) for word in words if '.' in word),
                           *(fnmatch.filter(self.files, '*' + pattern) for pattern in patterns))

    @functools.lru_cache(maxsize=None)
    def named_by(self, file):
        """What a script runs or reads, and what a source includes."""
        kept = {'.sh': r'^(?!\s*#).*', '.py': r'^(?!\s*#).*', '.c': r'^#include.*', '.h': r'^#include.*'}.get(os.path.splitext(file)[1])
        if kept is None or not os.path.exists(file) or file == 'tests/quick.py':
            return set()
        text = '\n'.join(re.findall(kept, open(file, errors='replace').read(), re.MULTILINE))
        if file.endswith('.py'):
            text += ''.join(' %s.py' % name.replace('.', '/') for name in re.findall(r'^(?:from|import) ([a-z_.]+)', text, re.MULTILINE))
        return self.named_in(text + recipe('install') * bool(re.search(r'\bmake .*\binstall\b', text)))

    def files_of(self, part):
        """What the recipe of a part names, and what those files name in turn."""
        found, fresh = set(), self.named_in(recipe(part))
        while fresh:
            found |= fresh
            fresh = set().union(*(self.named_by(file) for file in fresh)) - found
        return found


def touched(parts, files, crates, commit):
    tree = Tree(sorted({file for file in said('git', 'ls-files').split('\n') + files if file and not file.startswith('crates/')}))
    before = ROOM + '.Makefile'
    with open(before, 'w') as to:
        to.write(said('git', 'show', commit + ':Makefile'))
    for part in parts:
        linked = any(archive in recipe(part) for archive in ARCHIVES)
        quoted = part == 'pages' and any(file.startswith('crates/') for file in files)
        if tree.files_of(part) & set(files) or 'Makefile' in files and recipe(part) != recipe(part, before) or linked and crates or quoted:
            yield part, linked


def main():
    os.chdir(os.path.join(os.path.dirname(os.path.abspath(__file__)), '..'))
    os.makedirs('target', exist_ok=True)
    commit = base()
    files = changed_since(commit)
    print('make quick: %d changed files since %s' % (len(files), said('git', 'log', '-1', '--format=%h %s', commit).strip()), flush=True)
    crates = crates_in(open('crates.txt').read())
    proved, edits = changed_crates(crates, files, commit)
    run('tests/fmt.sh', 'target/test/fmt')
    check(crates, proved | directly_above(crates, proved) | edits)
    if edits:
        run('rt', 'must-fail', *sorted(edits))
    fresh = subprocess.run(['make', '-q', *ARCHIVES], stdout=subprocess.DEVNULL, stderr=subprocess.DEVNULL).returncode == 0
    inside = proved & set().union(*(below(crates, name) for name in LIBRARIES))
    picked = list(touched(sys.argv[1:], files, inside, commit))
    some = [part for part, linked in picked if fresh or not linked]
    left = [part for part, linked in picked if linked and not fresh]
    if some:
        run('make', '--no-print-directory', 'test', 'MADE=', 'PARTS=' + ' '.join(some))
    if left:
        print('make quick: left out, since an archive would have to be proved first (make %s does): %s' % (' '.join(ARCHIVES), ' '.join(left)))


status = 0
try:
    main()
except Failed as failure:
    print('make quick: FAILED: %s' % failure)
    status = 1
print('make quick: this is not the verdict; .ci/run gives it')
sys.exit(status)
