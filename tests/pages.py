#!/usr/bin/env python3
"""pages.py [TOP]: what README.md, docs/ and man/ say of the sources is so, in the tree at TOP.

- Text of the sources that a page quotes stands in crates/ as it is, white space aside. `..` in it is what is left out; a block behind a line
  `<!-- shape -->`, and the table of signs in docs/NOTATION.md, quote nothing.
- A name in backquotes is that of something: a definition, function, theorem, module, crate, file, command, setting or option. Where a page says in
  which module or crate (`crate/Module`: `name`; `name` in `file`; `module::name`), it stands there.
- The tables of docs/ARCHITECTURE.md name every theorem of the pages of statements, each in the table of its request, and say in every row what is proved.
- docs/PROVED.md names every must-fail edit, every wrong server and every wrong reporter.
- Functions, constants and options of the manual pages are those of the headers and the examples.
- docs/PORT.md and docs/DESIGN-PASS.md, which say what was spelled, called and written otherwise, are not read. Of docs/LANDINGS.md, which is history, only the newest
  note is read, and there no sentence that tells what was; but that note, and that of each request, tells the check's time."""
import functools, glob, os, re, sys

# The pages of statements, by crate and module of proofs/, and which tables of docs/ARCHITECTURE.md name their theorems: those with this in the heading, or
# any. A module in WITH_STEPS has steps of proofs as well, and its statements are those that docs/PROVED.md names. A module whose head says that it is such a
# page (PAGE) must be here, and so must one that docs/PROVED.md cites under "Proved".
PAGE = re.compile('as theorems about|the statements alone')
ANY = ''
STATEMENTS = {
    'demands/Demands': ANY,
    'demands/Features': '02 [11]',
    'demands/Firm': ANY,
    'demands/Peers': '02 [10]',
    'demands/Place': '02 [2]',
    'demands/Plain': '02 [13]',
    'demands/Sets': '02 [6]',
    'demands/TakingOver': '02 [8]',
    'demands/Together': '02 [6]',
    'demands/Unreachable': '02 [7]',
    'list_laws/Exactly': '02 [14]',
    'list_laws/FirstLine': '02 [14]',
    'list_laws/Longest': '02 [14]',
    'list_laws/Refusing': '02 [14]',
    'list_laws/Words': '02 [14]',
    'moving/Moving': '02 [5]',
    'neighbour/Neighbour': '02 [9]',
    'older_rules/Sets': '02 [6]',
    'older_rules/Unreachable': '02 [7]',
    'report_numbers/Numbers': '02 [3]',
    'rewrite/Reaching': '02 [6]',
    'seen_alike/Likeness': '02 [5]',
    'seen_alike/Moved': '02 [5]',
    'row_laws/Rows': 'The row',
    'sh_demands/Demands': '02 [12]',
    'sh_demands/Peers': '02 [12]',
    'sh_demands/Place': '02 [12]',
    'sh_neighbour/Neighbour': '02 [12]',
    'taking/Taking': '02 [8]',
    'vectors_sent/Sending': '02 [1]',
}
WITH_STEPS = {'rewrite/Reaching', 'seen_alike/Likeness'}
# Modules of proofs/, in whatever crate, that docs/PROVED.md cites under "Proved" and that are no such pages: examples, instances, wrong servers, single laws.
NO_STATEMENTS = set('''
    Areas AsWalked Cases Challenges Editions Escaping Examples Family Features Instances Listing Members Moves One Peers Reached Readings Room Same Servers Sole Sound TakeOvers Worked
'''.split())
# The crates that have wrong servers, wrong reporters or wrong rows, each with a theorem `.._fails`.
WRONG = ('report_example', 'row_example', 'sets_example', 'sh_example', 'taking_example', 'wrong_lists', 'wrong_servers')
# What a cell of the column Theorem says where there is no theorem: it is the contract of a function of that row; or there is none, and why.
MARKS = ('the contract', 'none:')

# Names that are not this tree's: words of Rattle, of C, of other software, of protocols; and samples.
OTHERS = set('''
    Bool abbrev ensures false match none not pub requires true unfoldable use mod zero wrapping_add wrapping_sub memcpy memset strict_mbit cxdx_forced_peer
    diameter_gen_base_rfc3588 diameter_gen_base_rfc6733 AKAv1-MD5 Digest-AKAv1-MD5 unknown nonce= response= axioms= axioms=37 libraries-built=trusted logic-built=trusted
    Bob a aa bob isle r key=value m1 m4 o1 o4 qemu-x86_64
'''.split()) | {
    'crates/*/out/', r'a\0', '#', r'\"', r'\\', r'\xHH', 'refused 2', 'installed', 'number << 48', 'number << 48 | place << 32 | value', 'N passed, 0 failed',
    'PKG_CONFIG_PATH=PREFIX/lib/pkgconfig', "awk '$1 < 10'", 'chmod a-w', 'freeDiameterd -c relay.conf', 'save()', 'save("SAA", "location", "0", "0")',
    'ims.mnc001.mcc001.3gppnetwork.org',
}
SAMPLE = re.compile(r'(sip|tel):\S+|<[\w-]+/?>|\d+ passed, 0 failed')
# What is made or installed and is not in the tree.
MADE = ('live', 'cards', 'service', 'target', 'share', '..')

PORT = {'docs/PORT.md', 'docs/DESIGN-PASS.md'}

faults = []


def fault(page, text):
    if (page, text) not in faults:
        faults.append((page, text))


def read(path):
    with open(path, encoding='utf-8') as file:
        return file.read()


@functools.lru_cache(maxsize=None)
def folded(text):
    return ' '.join(text.split())


# ---- the sources

DECLARED = re.compile(r'\s*((?:(?:pub|unfoldable|abbrev)\s+)*)(?:(record|data|module)\s+)?([^\s(){};:=]+)((?:\s+[^\s(){};:=]+)*)\s*(:(?=\s|$))?')


@functools.lru_cache(maxsize=None)
def declared_in(text):
    """(name, whether it is a public statement) of each declaration of an antt module but those that are local to a proof. Fields and constructors are
    no statements."""
    fields, local, found = -1, -1, []
    for line in text.split('\n'):
        deep = len(line) - len(line.lstrip())
        if not line.strip():
            continue
        fields = fields if deep > fields else -1
        local = local if deep >= local else -1
        if line.split()[0] == 'where' and local < 0:
            local = deep
        first = DECLARED.match(line)
        if local >= 0 or not first or first.group(3) == 'let':
            continue
        words, kind, name, more, typed = first.groups()
        if kind:
            found.append((name, False))
            fields = deep if kind != 'module' and fields < 0 else fields
        elif typed:
            found.extend((one, fields < 0 and words.split() == ['pub']) for one in [name] + more.split())
    return found


@functools.lru_cache(maxsize=None)
def declared_by(text):
    """The names that Rattle code declares: functions, types, constants, modules, fields, variants."""
    names = set(re.findall(r'\b(?:fn|struct|enum|const|static|type|mod)\s+([A-Za-z_]\w*)', text))
    for body in re.findall(r'\b(?:struct|enum)\s+\w+[^{;]*\{([^}]*)\}', text):
        names |= set(re.findall(r'(?m)^\s*(?:pub\s+)?([A-Za-z_]\w*)\s*[:,({]', body))
    return names


class Tree:
    def __init__(self):
        self.crates = re.findall(r'(?m)^([a-z_]+)(?: staticlib)?:', read('crates.txt'))
        self.modules, self.statements, self.code, self.contracts, self.text, self.pages = {}, {}, {}, {}, [], set()
        for path in sorted(path for form in ('specs/**/*.antt', 'proofs/**/*.antt', 'src/**/*.rt') for path in glob.glob('crates/*/' + form, recursive=True)):
            crate, part, file = path[len('crates/'):].split('/', 2)
            if file.endswith(('/Proof.antt', '/Answers.antt', '/Invariants.antt')):
                continue  # of one function; it has no names that are used elsewhere
            text, key = read(path), (crate, part, os.path.splitext(os.path.basename(file))[0])
            self.text.append(folded(text))
            if part == 'src':
                self.code[crate, key[2]] = declared_by(re.sub(r'//.*', '', text))
                for name, contract in re.findall(r'\bfn (\w+)(.*?)\n\s*\{\n', text, re.S):
                    self.contracts[crate, name] = self.contracts.get((crate, name), '') + contract
            else:
                found = declared_in(re.sub(r'(?m)(^|\s)--( .*|$)', '', text))
                self.modules[key] = {name for name, _ in found}
                if part == 'proofs':
                    self.statements['%s/%s' % (crate, key[2])] = [name for name, stated in found if stated]
                    self.pages |= {'%s/%s' % (crate, key[2])} if PAGE.search(folded(text.partition('\nuse ')[0].replace('--', ''))) else set()
        self.make, self.kit, self.header = read('Makefile'), read('KIT-ID').strip(), read('include/ndushavire.h') + read('include/ndushavire_sh.h')
        self.targets = set(' '.join(re.findall(r'(?m)^\.PHONY: (.*)', self.make)).split())
        self.around = '\n'.join(read(path) for path in glob.glob('examples/*.[ch]') + glob.glob('include/*') + glob.glob('packaging/*'))
        self.edits = {path[len('crates/'):] for path in glob.glob('crates/*/must-fail/*.edit')}
        self.names = set().union(*self.modules.values(), *self.code.values())
        self.files = {name for _, _, name in self.modules} | {name for _, name in self.code}

    def module(self, path):
        """What stands in `crate/Module`, `crate/proofs/Module.antt` or `crate/src/file.rt`; None if there is no such thing."""
        crate, _, rest = re.sub(r'\.(antt|rt)$', '', path).partition('/')
        part, _, name = rest.rpartition('/')
        found = [self.modules[key] for key in self.modules if key[0] == crate and key[2] == name and part in ('', key[1])]
        found += [self.code[key] for key in self.code if part == 'src' and key == (crate, name)]
        return set().union(*found) if found else None

    def within(self, crate, parts=('specs', 'proofs', 'src')):
        """All that stands in a crate, or in any where none is named."""
        found = [names for key, names in self.modules.items() if crate in ('', key[0]) and key[1] in parts]
        found += [names for key, names in self.code.items() if crate in ('', key[0]) and 'src' in parts]
        return set().union(*found)

    def has_path(self, path):
        """a::b, where b is declared in the crate, the file or the type a."""
        *outer, last = path.split('::')
        return any(last in names and (outer[-1] in key or outer[-1] in names) and set(outer[:-1]) <= set(key) for key, names in self.code.items())

    def holds(self, text):
        """Whether some file of crates/ has the text."""
        pieces = [folded(piece) for piece in re.split(r'(?:^|\s)\.\.(?:\s|$)', text)]
        return any(in_order(pieces, one) for one in self.text)


def in_order(pieces, text):
    at = 0
    for piece in pieces:
        at = text.find(piece, at)
        if at < 0:
            return False
        at += len(piece)
    return True


# ---- the pages

def notes():
    return read('docs/LANDINGS.md').split('\n## ')[1:]


def newest():
    """The newest note without the sentences that tell what was."""
    return '\n\n'.join(sentence for part in re.split(r'\n(?=- )|\n\n', notes()[-1]) for sentence in re.split(r'(?<=[.;:])\s', part)
                       if not re.search(r'\b(gone|went|was|were|before)\b', sentence, re.I))


def paragraphs(page):
    """(heading, whether it is a block of its own, text) of each paragraph and each row of a table."""
    heading, shape = '', False
    for part in re.split(r'\n\s*\n', newest() if page == 'docs/LANDINGS.md' else read(page)):
        lines = [line for line in part.split('\n') if line.strip()]
        if lines and lines[0].startswith('#'):
            heading = lines.pop(0).lstrip('# ')
        if not lines:
            continue
        if lines == ['<!-- shape -->']:
            shape = True
            continue
        block = all(line.startswith('    ') for line in lines) and '`' not in part
        if not (block and shape) and not lines[0].startswith('| Written | Read |'):
            yield from ((heading, block, text) for text in (['\n'.join(lines)] if block else units(lines)))
        shape = False


def units(lines):
    """Rows of a table each by itself, other lines together."""
    other = []
    for line in lines:
        if line.lstrip().startswith('|'):
            yield line.strip()
        else:
            other.append(line.strip())
    if other:
        yield ' '.join(other)


def spans(text):
    """What stands in backquotes; `_more` behind `some_name` is short for `some_more`, and `b.edit` behind `a/must-fail/a.edit` for one of that folder."""
    name = folder = ''
    for span in re.findall(r'`([^`]+)`', text):
        if re.fullmatch(r'_[a-z0-9]+(_[a-z0-9]+)*', span) and '_' in name:
            span = name.rpartition('_')[0] + span
        elif re.fullmatch(r'\w+\.(edit|antt)', span) and folder:
            span = folder + '/' + span
        name = span if re.fullmatch(r"[a-z][a-z0-9'_]*", span) else name
        folder = span.rpartition('/')[0] if re.fullmatch(r'[a-z_]+/[a-z-]+/\w+(\.\w+)?', span) else folder
        yield span


def expanded(text):
    """The text with every short form written out."""
    whole = list(spans(text))
    return re.sub(r'`[^`]+`', lambda one: '`%s`' % whole.pop(0), text)


# ---- quotations and names

SOURCE = re.compile(r'[≡ℕλ]|^\s*(?:pub |unfoldable |abbrev |fn )', re.M)


def check_quotation(tree, page, text):
    if SOURCE.search(text) and not tree.holds(text):
        fault(page, 'quotes what no file of crates/ has: %s ..' % folded(text)[:80])


def check_names(tree, page, text):
    for span in spans(text):
        if span not in OTHERS and not SAMPLE.fullmatch(span) and not known(tree, span):
            fault(page, 'names `%s`, and there is no such thing' % span)


def known(tree, span):
    words = span.split()
    if span == tree.kit or '/' in words[0] and len(words) > 1 and os.path.isfile(words[0]):
        return True
    if words[0] in ('make', 'rt'):
        return all(is_command(tree, words[0], word) for word in words[1:])
    if re.fullmatch(r'[A-Za-z_-]+=\S*( [A-Za-z_-]+=\S*)*', span):
        return all(is_setting(tree, word) for word in words)
    if words[0].startswith(('-', 'ndushavire-', 'showtable', './')):
        return all(word in tree.make or word in tree.around or is_file(tree, word) for word in words)
    if re.fullmatch(r'\w+(::\w+)+', span):
        return words[0].startswith(('libc::', 'os::c::')) or tree.has_path(span)
    if re.fullmatch(r'[a-z]\w*\.[a-z]\w*', span) and not is_file(tree, span):
        return all(word in tree.names for word in span.split('.')) or tree.holds(span)
    if re.fullmatch(r"[A-Za-z][\w'-]*(\(\))?", span):
        return is_name(tree, span.rstrip('()')) or is_file(tree, span)
    return is_file(tree, span) or tree.holds(span)


def is_name(tree, name):
    return name in tree.names or name in tree.crates or name in tree.files or name in tree.targets or '"%s"' % name in tree.around or \
        name.startswith('ndushavire_') and name in tree.header


def is_command(tree, of, word):
    if '=' in word:
        return is_setting(tree, word)
    return word in tree.targets if of == 'make' else True


def is_setting(tree, word):
    """KEY=VALUE of a make command, or of the text of a table."""
    key = word.partition('=')[0]
    return bool(re.search(r'\b%s\b' % re.escape(key), tree.make)) or '"%s"' % key in tree.around


def is_file(tree, path):
    if ' ' in path:
        return False
    if re.fullmatch(r'[a-z_]+(/\w+)?/[A-Z]\w*(\.antt)?', path):
        return tree.module(path) is not None
    return path.split('/')[0] in MADE or any(glob.glob(form % path) for form in (
        '%s', 'crates/%s', 'crates/*/%s', 'examples/%s', 'docs/%s', 'packaging/%s', 'tests/captured/%s.hex'))


# ---- where it stands

LIST = r'(`[^`]+`(?:(?:,|,? and) `[^`]+`)*)'
BEHIND = re.compile(r'`([a-z_]+(?:/\w+)*)`: ' + LIST)
BEFORE = re.compile(LIST + r',? in `([a-z_]+/(?:specs/|proofs/|src/)?\w+(?:\.antt|\.rt)?)`')


def check_places(tree, page, text):
    """`crate/Module`: `name`, `name`; `crate`: `name`; `name` in `crate/proofs/Module.antt`."""
    text = expanded(text)
    for place, names in BEHIND.findall(text) + [found[::-1] for found in BEFORE.findall(text)]:
        there = tree.within(place) if place in tree.crates else tree.module(place)
        for name in re.findall(r'`([^`]+)`', names):
            name = re.split(r'::| ', name)[-1 if '::' in name else 0]
            if there is not None and name not in there:
                fault(page, 'says that `%s` stands in `%s`, and it does not' % (name, place))


def check_read_list(tree, page):
    """The table of the definitions to read: modules of the crate's specs/, and what stands in them."""
    for heading, block, row in paragraphs(page):
        cells = row.split('|')
        if heading != 'The definitions to read' or len(cells) < 4 or not cells[1].strip().startswith('`'):
            continue
        crate = cells[1].strip(' `')
        modules = {key[2] for key in tree.modules if key[:2] == (crate, 'specs')}
        for name in spans(cells[2]):
            if name not in modules and name not in tree.within(crate, ('specs',)):
                fault(page, 'says that specs/ of `%s` has `%s`, and it has not' % (crate, name))


# ---- the maps

def map_rows():
    """(heading, {column: cell}) of each row of the tables of docs/ARCHITECTURE.md that have a column Theorem."""
    columns = []
    for heading, block, row in paragraphs('docs/ARCHITECTURE.md'):
        cells = [cell.strip() for cell in row.strip('|').split('|')] if row.startswith('|') else []
        if 'Theorem' in cells:
            columns = cells
        elif not cells or len(cells) != len(columns):
            columns = []
        elif not cells[0].startswith('---'):
            yield heading, dict(zip(columns, cells))


def named(cell):
    """The names in a cell, and the beginnings of those that it names by their beginning: `a` and those that begin so; `a` and `b`, with those that begin so."""
    begin = re.findall(r'`([^`]+)` and those that begin so', cell)
    for names in re.findall(LIST + ', with those that begin so', cell):
        begin += spans(names)
    return set(spans(cell)), tuple(name + '_' for name in begin)


def check_map(tree):
    page = 'docs/ARCHITECTURE.md'
    rows = list(map_rows())
    for heading, row in rows:
        where = 'the row "%s" of "%s"' % (row[next(iter(row))], heading)
        if not spans_or_mark(row['Theorem']):
            fault(page, '%s has no theorem, and does not say why' % where)
        if row['Theorem'].startswith('the contract') and not by_contract(tree, row):
            fault(page, '%s goes by a contract, and no function there has one with a definition there' % where)
        for column, parts in (('Code', ('src',)), ('Theorem', ('proofs',))):
            there = tree.within('', parts)
            for name in spans(row.get(column, '')):
                if re.fullmatch(r"[A-Za-z][\w'-]*", name) and name not in there and name not in tree.crates:
                    fault(page, '%s has `%s` in the column %s, and no file of %s/ declares it' % (where, name, column, parts[0]))
    check_statements(tree, page, rows)


def spans_or_mark(cell):
    return '`' in cell or cell.startswith(MARKS)


def by_contract(tree, row):
    """Whether a function in the column Code has a contract with a definition of the row; a module or a crate that stands alone is all that it has."""
    alone = lambda cell: [name for name, place in re.findall(r'`([^`]+)`(:?)', cell) if not place]
    definitions = set().union(*((tree.module(name) or set()) if '/' in name else {name} for name in alone(row['Definition'])))
    code = {name.split('::')[-1] for name in alone(row['Code'])}
    return any((function in code or crate in code) and not definitions.isdisjoint(re.findall(r"[\w'-]+", contract))
               for (crate, function), contract in tree.contracts.items())


def check_statements(tree, page, rows):
    proved = read('docs/PROVED.md').partition('\n## Trusted')[0]
    said = set(spans(folded(proved)))
    for crate, module in set(re.findall(r'`([a-z_]+)/proofs/(\w+)\.antt`', proved)):
        if '%s/%s' % (crate, module) not in STATEMENTS and module not in NO_STATEMENTS:
            fault('docs/PROVED.md', 'cites `%s/proofs/%s.antt`, of which tests/pages.py does not say whether it is a page of statements' % (crate, module))
    for module in sorted(tree.pages - set(STATEMENTS)):
        fault('tests/pages.py', 'does not have the page of statements %s' % module)
    for module, of in STATEMENTS.items():
        cells = [named(row['Theorem']) for heading, row in rows if of in heading]
        if module not in tree.statements:
            fault('tests/pages.py', 'has the page of statements %s, and there is none' % module)
        for name in tree.statements.get(module, ()):
            if module in WITH_STEPS and name not in said:
                continue
            if not any(name in names or name.startswith(begin) for names, begin in cells):
                fault(page, 'does not name `%s` of `%s` in a table%s' % (name, module, of and ' of ' + of))


# ---- wrong answers, manual pages, landings

def check_wrong_answers(tree):
    page = 'docs/PROVED.md'
    said = [span for _, block, text in paragraphs(page) for span in spans(text)]
    for edit in sorted(tree.edits.difference(said)):
        fault(page, 'does not name the must-fail edit `%s`' % edit)
    wrong = [name for crate in WRONG for name in tree.within(crate, ('proofs',)) if name.endswith('_fails')]
    for name in sorted(set(wrong)):
        if said.count(name) < wrong.count(name):
            fault(page, 'does not name the wrong server or reporter of `%s`' % name)


def check_manual(tree, page):
    text = read(page)
    for form, of in ((r'(?m)^\.(?:Fn|Fo) (\w+)', ''), (r'(?m)^\.(?:It (?:\d+ )?)?Dv (\w+)', ''), (r'(?m)^\.(?:It )?Fl (\S+)', '-')):
        for name in re.findall(form, text):
            if of + name not in tree.around:
                fault(page, 'has `%s`, and neither header nor examples have it' % (of + name))


def check_times():
    """"Every landing needs a short note that states .. the check's time before and after.\""""
    for note in notes():
        heading = note.split('\n')[0]
        if (heading.startswith('02 [') or note == notes()[-1]) and not re.search(r"the check's time", folded(note), re.I):
            fault('docs/LANDINGS.md', 'does not tell the check\'s time in the note "%s"' % heading)


def check():
    """What is wrong in the tree of the current folder, and how much was looked at."""
    faults.clear()
    tree = Tree()
    pages, seen = ['README.md'] + sorted(set(glob.glob('docs/*.md')) - PORT), 0
    for page in pages:
        for heading, block, text in paragraphs(page):
            if block:
                check_quotation(tree, page, text)
            else:
                seen += len(list(spans(text)))
                check_names(tree, page, text)
                check_places(tree, page, text)
    check_read_list(tree, 'docs/PROVED.md')
    check_map(tree)
    check_wrong_answers(tree)
    for page in sorted(glob.glob('man/*')):
        check_manual(tree, page)
    check_times()
    return ['%s %s' % one for one in faults], '%d names on %d pages, %d theorems of %d pages of statements, %d edits' % (
        seen, len(pages), sum(len(tree.statements.get(module, ())) for module in STATEMENTS), len(STATEMENTS), len(tree.edits))


if __name__ == '__main__':
    os.chdir(sys.argv[1] if len(sys.argv) > 1 else os.path.join(os.path.dirname(os.path.abspath(__file__)), '..'))
    wrong, looked_at = check()
    for one in wrong:
        print('pages.py: ' + one, file=sys.stderr)
    if wrong:
        sys.exit(1)
    print('pages.py: ' + looked_at)
