#!/usr/bin/env python3
"""plain.py [FOLDER]: holds the plain engine to sharing with the quick one only what has no trick in it.

It goes by the code of all crates, not by definitions and laws, which are the same for both. What a crate of the plain engine names of any other crate, in a
`use` or where it calls, as a function or as a method, is a type, a constant, or a function of SHARED; and by whatever these call in turn, no function of a
crate that has a trick is reached but those of REACHED, and the quick functions over bytes only below the effect on one block. A method counts as each type's
of its name, whatever stands before the dot, but on a field of a parameter: there as that type's which the declarations say. Then the same with one forbidden
line put in after the other, each of which must be found. Status 0 if all is so, 1 if not."""
import functools, pathlib, re, sys

ENTRY = 'ndushavire_plain'
ENTRIES = ['ndushavire::' + ENTRY, 'ndushavire_c::' + ENTRY]  # the library's function, and what C calls
OWN = 'plain_table plain_lookup plain_vectors plain_questions plain_assignment plain_reading plain_looks plain_answering plain_deciding plain_calling'.split()
# Numbers in bytes, blocks and the parts of them, one AVP and what a table of kinds says of it, the choices, the effect on one block, the writers.
SHARED = {
    'octets': 'byte number::be16 number::be32 run::zero_between',
    'blocks': 'block',
    'record': 'fields::barred fields::private fields::public fields::server fields::unregistered_services header::read subscriber::read',
    'table': 'area::table_length',
    'lookup': 'block_found',
    'vectors': 'choice::none mark::spend vector::private vector::read',
    'diameter': 'avp_part data_at present_at read_avp value_of',
    'reading': 'at lacking of features::asks features::passes group::gathers group::group_fault kinds::kind_of kinds::needed kinds::row_of kinds::use_in',
    'requests': 'dialect identities::next_identity places::data_of places::given places::member_of places::value_of',
    'choices': 'challenge::challenge_of challenge::finding choice::authorization choice::location giving::capable giving::faulty giving::plain '
               'giving::serving plan::finding plan::plan plan::reply_only types::allows types::is_removal types::from',
    'assignment': 'naming::meant_by',
    'rewrite': 'change_if',
    'pen': 'put_copy',
    'envelope': 'front::put_start header::put_header last::put_failed',
    'reply': 'front::put_server given::put_given',
    'refusals': 'early',
}
# Of the crates with a trick: the check's hash and sums over several blocks, look-ups that halve, one walk for all rules, one pass over all records.
REACHED = {
    'table': 'area::table_length',
    'lookup': 'block_found',
    'vectors': 'choice::none mark::mark mark::mark_at mark::spend vector::confidentiality_key vector::integrity_key vector::part vector::private '
               'vector::rand_autn vector::read vector::xres',
    'requests': 'dialect identities::next_identity places::data_of places::given places::member_of places::value_of places::value_of_place',
    'questions': '', 'assignment': 'naming::meant_by', 'answering': '', 'deciding': '', 'calling': '',
}
# The effect on one block, below which alone the sum as the machine has its words, names by eights of bytes, and masks are.
EFFECTS = {'rewrite::change_if', 'vectors::mark::spend'}
QUICK = re.compile(r'octets::(sum::|name::|run::(mask|set_bits|set_past)$|number::le)')


def plain(text):
    """Without comments, strings and single characters, of which one may be a quote, and what is said of a function before its body."""
    text = re.sub(r"b?'(\\.|[^'\\\n])'", "''", text)
    text = re.sub(r'(?m)//.*$', ' ', re.sub(r'b?"(\\.|[^"\\])*"', '""', text))
    # what an attribute tells the prover
    text = re.sub(r'#!?\[tactic\((?:[^()]|\([^()]*\))*\)\]', ' ', text)
    clauses = re.compile(r'\b(?:(?:requires|ensures)\*?(?:\s+\w+)?|ghost\s+\w+\s*:)\s*(?=\{)')
    while clause := clauses.search(text):
        text = text[:clause.start()] + ' ' + text[closed(text, clause.end()):]
    return re.sub(r'(?m)^\s*(?:pub\s+)?ghost\s[^;]*;', ' ', text)


def closed(text, at):
    """Where what the brace at this place opens is closed, behind the closing brace."""
    deep = 0
    for n in range(at, len(text)):
        deep += (text[n] == '{') - (text[n] == '}')
        if deep == 0:
            return n + 1
    return len(text)


def names_in(use):
    """The paths that a `use` brings in, each whole: a::{b, c::d} brings a::b and a::c::d."""
    head, brace, rest = use.partition('{')
    if not brace:
        return [use.strip()]
    parts, deep = [''], 0
    for letter in rest.rstrip()[:-1]:
        deep += (letter == '{') - (letter == '}')
        if letter == ',' and deep == 0:
            parts.append('')
        else:
            parts[-1] += letter
    return [head.strip() + name for part in parts if part.strip() for name in names_in(part.strip())]


@functools.lru_cache(None)
class Source:
    """A file of code: its module's path, the names that it brings in, and its functions, each with what it says."""

    def __init__(self, path, text):
        _, self.crate, _, *inner = path.split('/')
        inner = [part.replace('.rt', '') for part in inner]
        self.path, self.module = path, '::'.join([self.crate] + [part for part in inner if part not in ('lib', 'main')])
        text = plain(text)
        self.uses = [name for use in re.findall(r'(?m)^\s*(?:pub\s+)?use\s+([^;]*);', text) for name in names_in(' '.join(use.split()))]
        self.broad = [use for use in self.uses if not re.fullmatch(r'\w+(::\w+)+', use) or use.endswith('::self')]
        self.brought = {use.split('::')[-1]: self.whole(use) for use in self.uses if use not in self.broad}
        body = re.sub(r'(?m)^\s*(?:pub\s+)?use\s+[^;]*;', ' ', text)
        self.body = body
        self.outside, *parts = re.split(r'\bfn\s+(\w+)', body)
        self.functions, self.methods = {}, set()
        # Functions of one name, of several types, count as one that says what each says.
        for name, said in zip(parts[::2], parts[1::2]):
            self.functions[name] = self.functions.get(name, '') + 'fn' + said
            if re.search(r'\(\s*(?:&\s*)?(?:\'\w+\s+)?(?:mut\s+)?self\b', said.split('{')[0]):
                self.methods.add(name)
        self.types = blocks(body, r'\b(?:struct|enum)\s+(\w+)[^{;(]*(?=\{)')
        self.impls = blocks(body, r'\bimpl\b[^{;]*?(\w+)\s*(?:<[^<>{;]*>)?\s*(?:where\b[^{;]*)?(?=\{)')

    def whole(self, path):
        return re.sub(r'^crate\b', self.crate, path)


def blocks(text, head):
    """Each name that a head gives, and what stands in the braces behind it."""
    return [(found[1], text[found.end():closed(text, found.end())]) for found in re.finditer(head, text)]


def lower(path):
    """Without the types in it: a function of a type counts as one of its module."""
    return '::'.join(part for part in path.split('::') if not part[0].isupper())


class Code:
    """All sources, and who names whom."""

    def __init__(self, files):
        self.sources = [Source(path, text) for path, text in sorted(files.items())]
        self.crates = {source.crate for source in self.sources}
        self.modules = {source.module for source in self.sources}
        self.functions = {source.module + '::' + name: (source, said) for source in self.sources for name, said in source.functions.items()}
        self.methods, self.owned, self.typed = {}, {}, {}
        for source in self.sources:
            for name in source.methods:
                self.methods.setdefault(name, set()).add(source.module + '::' + name)
            for kind, block in source.impls:
                for name in re.findall(r'\bfn\s+(\w+)', block):
                    self.owned.setdefault(name, set()).add(source.module + '::' + name)
                    self.typed.setdefault((kind, name), set()).add(source.module + '::' + name)

    def declared(self, source, path):
        """The source and the block of the one type of this name in the crate that a path leads to, or none."""
        head, *rest = re.sub(r'\s', '', path).split('::')
        crate = source.brought[head] if head in source.brought else head if rest and head in self.crates else source.crate
        found = [(other, block) for other in self.sources if other.crate == crate.split('::')[0]
                 for name, block in other.types if name == (rest or [head])[-1]]
        return found[0] if len(found) == 1 else None

    def receiver(self, source, text, before):
        """The name of the type of what stands before a method's dot, if it is a field of a parameter, or of its fields, whose name is bound once in the
        function; else none."""
        chain = re.search(r'(\w+(?:\s*\.\s*\w+)+)\s*$', before)
        if not chain or before[:chain.start()].rstrip().endswith('.'):
            return None
        name, *fields = re.split(r'\s*\.\s*', chain[1])
        typed = r':\s*(?:&\s*(?:\'\w+\s+)?(?:mut\s+)?)?((?:\w+\s*::\s*)*[A-Z]\w*)'
        head, _, body = text.partition('{')
        kinds = re.findall(r'[(,]\s*(?:mut\s+)?%s\s*%s' % (name, typed), head)
        # by let, for or a closure, or in a pattern
        anew = r'\b(?:let|for|matches)\b[^=;]*\b%s\b|\|[^|]*\b%s\b[^|]*\||\b%s\b[^{;]*=>' % (name, name, name)
        if len(kinds) != 1 or re.search(anew, body):
            return None
        for field in fields:
            found = self.declared(source, kinds[0])
            kinds = found and re.findall(r'\b%s\s*%s' % (field, typed), found[1])
            if not kinds or len(kinds) != 1:
                return None
            source = found[0]
        return kinds[0].split('::')[-1] if self.declared(source, kinds[0]) else None

    def called(self, source, text):
        """The functions that a text names, by their whole paths: called, or taken by name behind a path."""
        found = set()
        for path in re.findall(r'(?<![\w.:])((?:\w+\s*::\s*)+[a-z_]\w*|[a-z_]\w*(?=\s*\())', text):
            head, _, rest = re.sub(r'\s', '', path).partition('::')
            if head in source.brought:
                whole = source.brought[head] + ('::' + rest if rest else '')
            elif not rest:
                whole = source.module + '::' + head
            elif source.crate + '::' + head in self.modules and head not in self.crates:
                whole = source.crate + '::' + head + '::' + rest
            elif head[0].isupper():
                whole = source.module + '::' + rest
            else:
                whole = source.whole(head + '::' + rest)
            name, whole = whole.split('::')[-1], lower(whole)
            if whole in self.functions or whole.split('::')[0] not in self.crates or (rest and whole not in self.modules):
                found.add(whole)
            # Of a type that stands elsewhere: each type's function of that name.
            if whole not in self.functions and re.search(r'\b[A-Z]\w*\s*::\s*\w+$', path):
                found |= self.owned.get(name, set())
        for name in re.findall(r'>\s*::\s*([a-z_]\w*)', text):
            found |= self.owned.get(name, set()) | self.methods.get(name, set())
        # A method counts as each function of its name that takes a self, whatever it is called on, but for a field of a parameter, whose type stands there.
        for part in re.split(r'\bfn\b', text):
            for call in re.finditer(r'\.\s*([a-z_]\w*)\s*(?=\(|::)', part):
                whose = self.methods.get(call[1], set())
                kind = self.receiver(source, part, part[:call.start()]) if len(whose) > 1 else None
                found |= self.typed.get((kind, call[1])) or whose
        return {path for path in found if '::' in path}

    def reached(self, names, but=()):
        """Every function that these call, and through whom; of those named in BUT not what they call."""
        through, rest = {name: None for name in names}, list(names)
        while rest:
            name = rest.pop()
            for other in sorted(self.called(*self.functions[name])) if name in self.functions and name not in but else []:
                if other not in through:
                    through[other] = name
                    rest.append(other)
        return through


def faults(files):
    """What is against the rule, as sentences. FILES are the code of all crates, by path."""
    code, wrong = Code(files), []
    own = [source for source in code.sources if source.crate.startswith('plain_')]
    for name in sorted(set(OWN) ^ {source.crate for source in own}):
        wrong.append('%s is %s' % (name, 'no crate' if name in OWN else 'not known here'))
    for source in own:
        for use in source.broad:
            wrong.append('%s uses more than one name: %s' % (source.path, use))
        brought = {lower(path) for path in source.brought.values()}
        for path in sorted(code.called(source, source.body) | {path for path in brought if path in code.functions}):
            crate, _, rest = path.partition('::')
            if not crate.startswith('plain_') and (crate in code.crates or crate == 'std') and rest not in SHARED.get(crate, '').split():
                wrong.append('%s names %s' % (source.path, path))
    entries = [name for name in code.functions if name.split('::')[-1] == ENTRY]
    if sorted(entries) != ENTRIES:
        wrong.append('the functions %s are %s' % (ENTRY, ' '.join(entries)))
    starts = [name for name, (source, _) in code.functions.items() if source in own] + entries
    through = code.reached(starts)
    besides = code.reached(starts, EFFECTS)
    wrong += ['%s is reached through %s' % (path, besides[path]) for path in sorted(besides) if QUICK.match(path)]
    for path in sorted(through):
        crate, _, rest = path.partition('::')
        if crate in REACHED and path in code.functions and rest not in REACHED[crate].split():
            wrong.append('%s is reached through %s' % (path, through[path]))
    return wrong


def noticed(files):
    """Each forbidden line put in: those that are not found."""
    into = lambda path, line: {**files, path: files[path] + '\n' + line + '\n'}
    at = lambda crate: 'crates/%s/src/lib.rt' % crate
    lent = lambda call: into(at('plain_assignment'), 'fn more(said: &Said) { %s; }' % call)
    below = lambda line: into(at('refusals'), line)
    called = lambda crate, use, call: into(at(crate), (use + '\n' if use else '') + 'fn more(t: &[u8]) { %s; }' % call)
    tried = {
        'a look-up that halves': called('plain_lookup', '', 'lookup::find_public(t, 1, t)'),
        'a look-up near a record': called('plain_questions', 'use lookup::known_near;', 'known_near(t, 1, 1, t)'),
        'barring by the quick look-up': called('plain_questions', '', 'lookup::barred_alone(t, 1, t)'),
        'the visited network by the quick look-up': called('plain_questions', '', 'lookup::may_roam(t, 1, t, t)'),
        "the table's check": called('plain_calling', '', 'table::check(t, 0)'),
        'the check of an area': called('plain_calling', 'use table::area;', 'area::check_area(t, 0)'),
        'the hash of a name': called('plain_table', 'use table::hash;', 'hash::hash(t)'),
        'the members of sets by their hash': called('plain_table', '', 'table::members::agreeing(t, 1)'),
        'the sum of a block as the machine has its words': called('plain_table', '', 'octets::sum::sum_words(t)'),
        'names by eights': called('plain_table', 'use octets::name;', 'name::same(t, t)'),
        'a record judged by the quick check': called('plain_table', 'use record::subscriber;', 'subscriber::sound(t, 1, h, 0, t)'),
        "the vector file's check": called('plain_calling', 'use vectors::file;', 'file::check(t)'),
        'a vector judged by the quick check': called('plain_vectors', '', 'vector::sound(t, t)'),
        'unused vectors by the quick choice': called('plain_vectors', '', 'choice::first_unused(t, t, 1)'),
        'the question of a UAR': called('plain_deciding', 'use questions::authorization;', 'authorization::authorize(t)'),
        'the question of a LIR': called('plain_deciding', '', 'questions::location::locate(t, 1, t)'),
        'the question of a MAR': called('plain_deciding', '', 'questions::authentication::authenticate(t)'),
        'the plan of a SAR': called('plain_deciding', 'use assignment::assigning;', 'assigning::plan_sar(t, 1, t, s, t, t)'),
        'the plan of a SAR by a method': called('plain_deciding', '', 's.plan(t, 1, t)'),
        'a method of what stands in parentheses': called('plain_deciding', '', '(&s).plan(t, 1, t)'),
        'a method of a value made there': called('plain_deciding', '', 'assignment::Said { numbers, server: t, user: t }\n    .plan(t, 1, t)'),
        'a method behind a question mark': called('plain_deciding', '', 'asked(t)?.plan(t, 1, t)'),
        'a method of what a call answers': called('plain_assignment', '', 'said\n    .asks()\n    . look_at (t)'),
        'a method of one of several': called('plain_deciding', '', 'x[0].plan(t, 1, t)'),
        'a method of a number of several': called('plain_deciding', '', 'x.0.plan(t, 1, t)'),
        'a method of what is called numbers': called('plain_assignment', '', 'numbers.plan(t, 1, t)'),
        'a method of a field called numbers': called('plain_assignment', '', 's.said.numbers.plan(t, 1, t)'),
        'a method of the field numbers of what is bound anew': lent('let said = a(said); said.numbers.plan(t, 1, t)'),
        'a method of the field numbers in a closure': lent('a(|said| said.numbers.plan(t, 1, t))'),
        'a method of the field numbers of an arm': lent('match a() { Some(said) => said.numbers.plan(t, 1, t) }'),
        'a method of the field numbers of an arm in braces': lent('match a() { M { said } => said.numbers.plan(t, 1, t) }'),
        'a method of the field numbers of a pattern': lent('if let M { said } = a() { said.numbers.plan(t, 1, t) }'),
        'a method of the field numbers of a pattern in a test': lent('matches!(a(), M { said } if said.numbers.plan(t, 1, t))'),
        'a method of a field numbers of another type': into(at('plain_assignment'), 'struct M { numbers: Said }\nfn more(s: &M) { s.numbers.plan(t, 1, t); }'),
        'a method of a parameter called numbers': into(at('plain_assignment'), 'fn more(numbers: &Said) { numbers.plan(t, 1, t); }'),
        "a method's name that a plain crate has too": into(at('plain_assignment'), 'impl More { fn look_at(&self) {} }\nfn more() { a.look_at(t); }'),
        'a method by its path': called('plain_deciding', '', 'assignment::Said::plan(&s, t, 1, t)'),
        'a method by a path in angles': called('plain_deciding', '', '<assignment::Said>::plan(&s, t, 1, t)'),
        'a method by a path with arguments': called('plain_assignment', '', "Said::<'_> ::plan(&s, t, 1, t)"),
        'a method taken and not called': called('plain_assignment', '', 'let f = Said::plan'),
        'a method below what is shared': below('fn early(t: &[u8]) -> u16 { a()?.plan(t, 1, t); 0 }'),
        'a method by its path below what is shared': below('use assignment::Said;\nfn early(t: &[u8]) -> u16 { Said::plan(&s, t, 1, t); 0 }'),
        'a trick in one of two methods of a name': below('impl A { fn early(&self) { table::check(t, 0); } }\nimpl B { fn early(&self) {} }'),
        'the look at a record by a method': called('plain_assignment', '', 'asks.look_at(t)'),
        'the survey of the records named': called('plain_assignment', '', 'naming::survey_all(t)'),
        'the survey of the records owned': called('plain_assignment', '', 'assignment::owned::survey_owned(t)'),
        'the effects on a whole set at once': called('plain_assignment', 'use assignment::naming::settle_named;', 'settle_named(t, 1, t, 0, t)'),
        'the walk': called('plain_reading', 'use requests::walk;', 'walk::walk_message(t, d, p)'),
        'the whole reading': called('plain_calling', 'use requests::read_in;', 'read_in(t, d, p)'),
        'the rules of one AVP in one': called('plain_reading', 'use reading::rules;', 'rules::rule_at(t, d, p, a, 1)'),
        'the Session-Id of the quick walk': called('plain_looks', '', 'requests::session(t)'),
        'the features of the quick walk': called('plain_looks', 'use requests::features;', 'features::wanted_of(t, terms)'),
        'the Proxy-Infos of the quick walk': called('plain_looks', 'use envelope::last;', 'last::put_end(t, t, v)'),
        'the quick decision': called('plain_calling', 'use deciding::answer_sound;', 'answer_sound(t)'),
        'the quick plan': called('plain_deciding', '', 'deciding::planning::plan_read(t)'),
        'the quick call': called('plain_calling', '', 'calling::call(t)'),
        'the quick entry': called('plain_calling', '', 'ndushavire::ndushavire_decide(t)'),
        'a function taken and not called': called('plain_calling', '', 'let f = calling::call'),
        'a path with spaces': called('plain_calling', '', 'calling :: call(t)'),
        'a whole crate': into(at('plain_calling'), 'use calling;'),
        'a whole crate by another name': into(at('plain_calling'), 'use calling as first;'),
        'all names of a module': into(at('plain_reading'), 'use requests::walk::*;'),
        'several names at once': into(at('plain_reading'), 'use requests::{walk, read_in};'),
        'several names, one within another': into(at('plain_reading'), 'use requests::{walk::{self}, read_in};'),
        'one name of several, called': called('plain_calling', 'use table::{SoundTable, area::{check_area, table_length}};', 'check_area(t, 0)'),
        'all names of a module, among others': into(at('plain_reading'), 'use requests::{dialect, walk::*};'),
        'a name of several by another name': into(at('plain_calling'), 'use calling::{Came, call as other};'),
        'a trick behind a quote': into(at('plain_calling'), "const A: u8 = b'\"';\nfn more() { table::check(t, 0); }\nconst B: u8 = b'\"';"),
        'names by eights below what is shared': into('crates/refusals/src/lib.rt', 'pub fn early(t: &[u8]) -> u16 { octets::name::same(t, t); 0 }'),
        'a trick below what is shared': into('crates/refusals/src/lib.rt', 'pub fn early(t: &[u8]) -> u16 { table::check(t, 0); 0 }'),
        'the quick call for C': {path: text.replace('ndushavire::ndushavire_plain(', 'ndushavire::ndushavire_decide(') for path, text in files.items()},
        'the quick call below the entry': {path: re.sub(r'\bplain_calling::call\b', 'calling::call', text) for path, text in files.items()},
        'the quick answer': called('plain_deciding', '', 'answering::answer(t)'),
        'the whole end of an answer': called('plain_answering', 'use envelope::last;', 'last::put_end(t, t, v)'),
        'a mask below what is shared': into('crates/refusals/src/lib.rt', 'pub fn early(t: &[u8]) -> u16 { octets::run::set_past(t, 1); 0 }'),
    }
    return [what for what, changed in tried.items() if not faults(changed)], len(tried)


def main():
    top = pathlib.Path(sys.argv[1] if len(sys.argv) > 1 else pathlib.Path(__file__).parent.parent)
    files = {str(path.relative_to(top)): path.read_text() for path in sorted((top / 'crates').glob('*/src/**/*.rt'))}
    wrong = faults(files)
    for sentence in wrong:
        print('plain.py: %s' % sentence, file=sys.stderr)
    if wrong:
        return 1
    missed, tried = noticed(files)
    for what in missed:
        print('plain.py: not noticed: %s' % what, file=sys.stderr)
    if not missed:
        crates = {path.split('/')[1] for path in files if path.startswith('crates/plain_')}
        print('plain.py: the code of %d crates shares with the quick engine what has no trick in it; each of %d things put in is noticed' % (
            len(crates), tried))
    return bool(missed)


if __name__ == '__main__':
    sys.exit(main())
