#!/usr/bin/env python3
"""definitions.py REFERENCE SEED COUNT: do the definitions say what the independent program says?

Takes calls that the independent program made and its outcomes of them, picks COUNT that show every refusal, every result,
every assignment type, every step of an authentication, both editions of a table and both of the base standard, the rules of sets, an area longer than its
table and what becomes of features that are asked for, and beside them a tenth as many take-overs, and as many calls of Sh with every refusal and result, and
writes them as a crate, which antt computes from the definitions alone.
The crate stands in a folder outside the repository, beside copies of the crates that crates/worked_examples, crates/sh_example and crates/ndushavire stand on.
What the cases open is read from proofs/Sample.antt of the first two, so that there is one list of it.
"""
import collections, itertools, os, re, shutil, struct, subprocess, sys, tempfile

import streams

GENERATED = 40000  # of which the small ones are about a fifth; some kinds are a few of them, so that a seed may need more
ROUNDS = 10
IN_A_PART = 12
# Longer ones take antt minutes and show nothing that short ones do not; a request that is refused 2 may be long.
MOST_REQUEST, MOST_TABLE, MOST_PROFILE, MOST_VECTORS = 900, 4 * 512, 1200, 4 * 512

BASE = '2001 3001 3007 3008 3009 5001 5003 5004 5005 5009 5011 5012 5014'
EXPERIMENTAL = '2001 2002 2003 2004 5001 5002 5003 5004 5005 5006 5007 5011'
# Of a MAR: its steps in their order, what becomes of the record, and the faults in reading that it alone has.
STEPS = ['X5001', 'X5002', 'X5006', 'B5012 zero asked', 'B5012 none unused', 'B2001 as many as asked', 'B2001 as many as remain', 'B2001 two or more']
STEPS += ['B2001 in state %d, %s' % (state, name) for state in range(3) for name in ('the name stored', 'the record as it was')]
STEPS += ['B5005 %d' % code for code in (1, 601, 612, 607, 602)] + ['B5004 612', 'B5014 607']
# Of features: what is asked for, and the server's own list in the answer, or not.
FEATURES = ['X5011 for a bit', 'X5011 for another list', 'X5011 for another vendor', 'X5011 with no bit', 'X5011 of several', 'X5011 to a MAR',
            'goes on with M', 'goes on without M', 'goes on with several', 'B5004 with M', 'B5004 without M']
FEATURES += ['told ' + what for what in ('with success', 'in a MAA', 'with an X result', 'beside Failed-AVP', 'that there are none', 'for one without M',
                                         'for one behind a fault', 'for one beside a bad one', 'though the first AVP is another')]
FEATURES += ['not told for one ' + what for what in ('behind a length fault', 'that comes first', 'with a reserved flag', 'under a header fault')]
WANTED = {'refused %d' % n for n in (1, 2, 3, 4, 5, 6, 12)} | {'B' + n for n in BASE.split()} | {'X' + n for n in EXPERIMENTAL.split()} | {
    'type %d done' % n for n in range(12)} | {'MAR ' + step for step in STEPS} | {'over edition 1', 'over edition 2'} | {
    'a set written whole', 'barred, another of its set free', 'a set that disagrees', 'over a longer area'} | {
    'by RFC 3588', 'by RFC 6733', 'B5009 for the second Vendor-Id', 'a second Vendor-Id goes on', 'B5004 beside a second Vendor-Id by RFC 6733'} | {
    'features: ' + what for what in FEATURES}

# Of a take-over.
TAKES = {'refused 9', 'refused 10', 'refused 10, by a block past the count', 'refused 11', 'taken', 'taken, with bytes behind it'}

# Of a call of Sh.
ASKS = {'refused %d' % n for n in (1, 2, 3, 4, 5, 12)} | {'X5001', 'X5100'} | {'B' + n for n in BASE.split()} - {'B2001', 'B5003', 'B5012'} | {
    'told ' + what for what in ('a name', 'an escaped name', 'no name though it was asked for', 'both', *('state %d' % state for state in range(4)))}

Ask = collections.namedtuple('Ask', 'request table profile room peer word answer')
Take = collections.namedtuple('Take', 'area fresh profile word at changed')
Case = collections.namedtuple('Case', 'request table profile vectors room peer features word at changed vectorsAt vectorsChanged answer')


def read(made, told):
    for case, outcome in zip(streams.cases(made), streams.outcomes(told)):
        held, changes = streams.slices(case), streams.changes(case, outcome)
        yield Case(held['request'], held['table'], held['profile'], held['vectors'], len(held['buffer']), *case.numbers, outcome.word,
                   *changes['table'], *changes['vectors'], streams.answer(case, outcome))


def read_takes(made, told):
    for case, outcome in zip(streams.cases(made), streams.outcomes(told)):
        held = streams.slices(case)
        yield Take(held['area'], held['fresh'], held['profile'], outcome.word, *streams.changes(case, outcome)['area'])


def small_take(take):
    return max(len(take.area), len(take.fresh)) <= MOST_TABLE and len(take.profile) <= MOST_PROFILE


def shows_take(take):
    number = take.word >> 48
    if number == 10 and len(take.area) >= 512:
        front = len(take.area) - len(streams.past(take.area))
        found = [at for at in range(0, len(take.area) - 511, 512) if take.area[at] in (1, 2) and take.area[at + 408:at + 412] >= take.fresh[408:412]]
        return 'refused 10, by a block past the count' if min(found) >= front else 'refused 10'
    if number:
        return 'refused %d' % number
    return 'taken, with bytes behind it' if len(take.fresh) < len(take.area) else 'taken'


def pick_takes(reference, seed, count):
    """A take-over of each kind, and then others as they come."""
    made = streams.made(reference, 'takes', seed, GENERATED // 10)
    takes = [take for take in read_takes(made, streams.run(reference, 'outcomes', given=made)) if small_take(take)]
    first = {shows_take(take): take for take in reversed(takes)}
    if missing := TAKES - set(first):
        sys.exit('definitions.py: this seed has no take-over that is %s' % ', '.join(sorted(missing)))
    return (list(first.values()) + [take for take in takes if take not in first.values()])[:max(count, len(first))]


def read_asks(made, told):
    for case, outcome in zip(streams.cases(made), streams.outcomes(told)):
        held = streams.slices(case)
        yield Ask(held['request'], held['table'], held['profile'], len(held['buffer']), *case.numbers, outcome.word, streams.answer(case, outcome))


def small_ask(ask):
    long = len(ask.request) > (20000 if ask.word >> 48 == 2 else MOST_REQUEST)
    return not long and len(ask.table) <= MOST_TABLE and len(ask.profile) <= MOST_PROFILE


def shows_ask(ask):
    if ask.word >> 48:
        return {'refused %d' % (ask.word >> 48)}
    found = dict(streams.avps(ask.answer[20:]))
    if (702, 10415) not in found:
        return {result_in(found)}
    name, state = (re.search(b'<%s>(.*)</%s>' % (of, of), found[702, 10415], re.S) for of in (b'SCSCFName', b'IMSUserState'))
    shown = {'told state %s' % state.group(1).decode()} if state else set()
    shown |= {'told a name'} if name else {'told no name though it was asked for'} if not state else set()
    return shown | ({'told both'} if name and state else set()) | ({'told an escaped name'} if name and b'&' in name.group(1) else set())


def pick_asks(reference, seed, count):
    """Calls of Sh that show all that is wanted, and then others as they come."""
    made = streams.made(reference, 'voicemail', seed, GENERATED)
    asks = [ask for ask in read_asks(made, streams.run(reference, 'outcomes', given=made)) if small_ask(ask)]
    picked, seen = [], set()
    for new in (lambda ask: shows_ask(ask) - seen, lambda ask: len(picked) < count):
        for ask in asks:
            if ask not in picked and new(ask):
                picked.append(ask)
                seen |= shows_ask(ask)
    if missing := ASKS - seen:
        sys.exit('definitions.py: this seed has no call of Sh that is %s' % ', '.join(sorted(missing)))
    return picked


def small(case):
    long = len(case.request) > (20000 if case.word >> 48 == 2 else MOST_REQUEST)
    return not long and len(case.table) <= MOST_TABLE and len(case.profile) <= MOST_PROFILE and len(case.vectors) <= MOST_VECTORS


def result_in(found):
    """B or X and the number, of an answer's AVPs by kind."""
    return 'B%d' % struct.unpack('>I', found[268, 0]) if (268, 0) in found else 'X%d' % struct.unpack('>I', found[297, 0][20:24])


def asked(case):
    """The AVPs of its request by kind."""
    return dict(streams.avps(case.request[20:]))


def steps(case, result, found):
    """What a MAR shows."""
    if result == 'B5012':
        return {'B5012 ' + ('none unused' if any(asked(case)[607, 10415]) else 'zero asked')}
    if result != 'B2001':
        return {result, '%s %d' % (result, int.from_bytes(found.get((279, 0), b'')[:4], 'big'))}
    number, sent = (int.from_bytes(avps[607, 10415], 'big') for avps in (asked(case), found))
    kept = 'the record as it was' if case.changed == b'' else 'the name stored'
    many = {'B2001 two or more'} if sent > 1 else set()
    state = streams.state(case.table, found[601, 10415])
    return many | {'B2001 as many as ' + ('asked' if sent == number else 'remain'), 'B2001 in state %d, %s' % (state, kept)}


def one_set(a, b):
    return any(a[406:408]) and a[406:408] == b[406:408] and a[144:144 + a[14]] == b[144:144 + b[14]]


def apart(a, b):
    """Two records of one set that differ in state, pending or server name."""
    return one_set(a, b) and (a[8], a[9] % 2, a[272:272 + a[15]]) != (b[8], b[9] % 2, b[272:272 + b[15]])


def set_shown(case, command, result):
    """What a call shows of sets: one identity asked about, and two records written; a barred one that goes on."""
    if command in (301, 303) and case.changed and sum(kind == (601, 10415) for kind, _ in streams.avps(case.request[20:])) == 1:
        return {'a set written whole'} if case.at // 512 < (case.at + len(case.changed) - 1) // 512 else set()
    if command == 300 and (result[1] == '2' or result in ('X5003', 'X5004')):
        name = asked(case)[601, 10415]
        return {'barred, another of its set free' for b in streams.records(case.table) if b[16:16 + b[13]] == name and b[9] // 2 % 2}
    return set()


def peer_shown(case, result, found):
    """What a call shows of the peer's edition; of several Vendor-Ids only where one 260 is read and no more."""
    shown, groups = {'by RFC %d' % case.peer}, [data for kind, data in streams.avps(case.request[20:]) if kind == (260, 0)]
    if len(groups) == 1 and sum(kind == (266, 0) for kind, _ in streams.avps(groups[0])) > 1:
        blamed = found.get((279, 0), b'')[:4] == struct.pack('>I', 260)
        if result == 'B5009' and blamed:
            shown.add('B5009 for the second Vendor-Id')
        if result == 'B5004' and blamed and case.peer == 6733:
            shown.add('B5004 beside a second Vendor-Id by RFC 6733')
        if result == 'B2001' or result[0] == 'X':
            shown.add('a second Vendor-Id goes on')
    return shown


Asked = collections.namedtuple('Asked', 'at flags vendor list bits')


def asked_for(case):
    """The 628s of its request that are right in themselves, but for their flags and their place, and those that are not."""
    right, bad = [], []
    for at, data in ((at, data) for at, kind, data in placed(case.request) if kind == (628, 10415)):
        members = sorted(streams.avps(data))
        if [kind for kind, _ in members] == [(266, 0), (629, 10415), (630, 10415)] and len(data) == 44:
            right.append(Asked(at, case.request[at + 4], *(int.from_bytes(number, 'big') for _, number in members)))
        else:
            bad.append(at)
    return right, bad


def placed(request):
    """Place, kind and data of each AVP up to one whose length is wrong; and where that would be, with no kind."""
    at = 20
    for kind, data in streams.avps(request[20:]):
        yield at, kind, data
        at += ((12 if request[at + 4] & 0x80 else 8) + len(data) + 3) // 4 * 4
    yield at, None, b''


def features_shown(case, command, result, found):
    """What a call shows of features."""
    (right, bad), place, told = asked_for(case), case.word >> 32 & 0xffff, (628, 10415) in found
    flawed = [one for one in right if one.flags & 0x1f or one.at == 20]
    fine = [one for one in right if one not in flawed]
    marked = [one for one in fine if one.flags & 0x40]
    much = [one for one in marked if one.vendor != 10415 or one.list != 1 or one.bits & ~case.features]
    shown, success = set(), result == 'B2001' or result[:2] == 'X2'
    if result == 'X5011':
        shown |= {'X5011 of several'} if len(fine) > len(much) else {'X5011 with no bit'} if not any(one.bits for one in much) else set()
        shown |= {'X5011 to a MAR'} if command == 303 else set()
        if all((one.vendor, one.list) == (10415, 1) for one in much):
            shown.add('X5011 for a bit')
        for what, others in ('list', [one.vendor == 10415 and one.list != 1 for one in much]), ('vendor', [one.vendor != 10415 and one.list == 1 for one in much]):
            shown |= {'X5011 for another ' + what} if all(others) else set()
    if success and fine:
        shown |= {'goes on with M'} if any(one.bits for one in marked) else set()
        shown |= {'goes on without M'} if not marked and any(one.bits & ~case.features for one in fine) else set()
        shown |= {'goes on with several'} if len(fine) > 1 else set()
    if result == 'B5004' and found.get((279, 0), b'')[:4] == struct.pack('>I', 628):
        shown.add('B5004 with' + ('' if found[279, 0][4] & 0x40 else 'out') + ' M')
    if told:
        shown |= {'told with success'} if success else {'told with an X result'} if result[0] == 'X' else set()
        shown |= {'told in a MAA'} if command == 303 and result == 'B2001' else set()
        shown |= {'told beside Failed-AVP'} if (279, 0) in found else set()
        shown |= {'told that there are none'} if case.features == 0 else set()
        shown |= {'told for one without M'} if not marked else set()
        shown |= {'told for one behind a fault'} if place and all(one.at > place for one in fine) else set()
        shown |= {'told for one beside a bad one'} if bad else set()
        shown |= {'told though the first AVP is another'} if case.request[20:24] != struct.pack('>I', 263) else set()
    elif result in ('B5011', 'B3008', 'B3001', 'B3007'):
        shown |= {'not told for one under a header fault'} if fine else set()
    else:
        cut_off = result == 'B5014' and [at for at, kind, _ in placed(case.request) if kind is None] == [place]
        shown |= {'not told for one behind a length fault'} if cut_off and struct.pack('>I', 628) in case.request[place + 4:] else set()
        shown |= {'not told for one that comes first'} if any(one.at == 20 for one in right) else set()
        shown |= {'not told for one with a reserved flag'} if any(one.at > 20 for one in flawed) else set()
    return {'features: ' + what for what in shown}


def shows(case):
    """Of WANTED; and its kind, which has the command, the answer's AVPs and whether a record changed besides."""
    if case.word >> 48:
        shown, block = {'refused %d' % (case.word >> 48)}, case.word & 0xffffffff
        records = streams.records(case.table)
        if case.word >> 48 == 5 and 1 <= block <= len(records) and any(apart(a, records[block - 1]) for a in records[:block - 1]):
            shown.add('a set that disagrees')
        return shown, frozenset(shown)
    found = dict(streams.avps(case.answer[20:]))
    result = result_in(found)
    command = int.from_bytes(case.request[5:8], 'big')
    shown = {result, 'over edition %d' % case.table[1]} | ({'over a longer area'} if streams.past(case.table) else set())
    if command == 301 and (result[0] == 'X' or result in ('B2001', 'B5012')):  # decided, so all AVPs are sound
        done = 'done' if result in ('B2001', 'X2004') else result
        shown.add('type %d %s' % (asked(case)[614, 10415][3], done))
    if command == 303:
        shown |= {'MAR ' + step for step in steps(case, result, found)}
    shown |= set_shown(case, command, result) | peer_shown(case, result, found) | features_shown(case, command, result, found)
    missing = found[279, 0][:4] if result == 'B5005' else None
    return shown, (frozenset(shown), min(command, 304), missing, frozenset(found), case.changed == b'', case.vectorsChanged == b'')


def pick(cases, count):
    """First what shows something new of WANTED, then what is of a new kind, then the others as they come."""
    kept, seen, kinds = {}, set(), set()
    for new in (lambda shown, kind: shown & WANTED - seen, lambda shown, kind: kind not in kinds, lambda shown, kind: True):
        for number, case in enumerate(cases):
            shown, kind = shows(case)
            if len(kept) < count and number not in kept and new(shown, kind):
                kept[number] = case
                seen |= shown
                kinds.add(kind)
    return list(kept.values()), WANTED - seen, len(kinds)


def listed(some):
    """A list of bytes, long runs by `replicate`."""
    text = '[]'
    for byte, run in reversed([(byte, len(list(run))) for byte, run in itertools.groupby(some)]):
        text = '(replicate %d %d ++ (%s))' % (run, byte, text) if run > 11 else '%d ∷ ' % byte * run + text
    return '(%s)' % text


def record(case):
    fields = [(name, value if isinstance(value, int) else listed(value)) for name, value in case._asdict().items()]
    return 'record { %s }' % ';\n        '.join('%s = %s' % field for field in fields)


# What the cases open or name besides, by the module that has it: the area, the call, the take-over.
OPENED = {'table.specs.Area': ['size_in', 'table_in'], 'taking.specs.Found': ['greater_at', 'greater_than_all'],
          'taking.specs.TakeOver': ['unfit', 'not_greater', 'too_short', 'take_over']}
NAMED = {'calling.specs.Serve': ['serve'], 'taking.specs.TakeOver': ['came']}
OF_SH = {'ndushavire_sh.specs.Lent': ['lent'], 'ndushavire_sh.specs.Serve': ['sh_serve']}


def opened(crate, opens, names_only):
    """The `use` lines of what a crate's worked examples share, and those of the names that they open which these lines bring; and what is opened or named
    besides."""
    text = open('crates/%s/proofs/Sample.antt' % crate).read()
    uses = [' '.join(use.split()) for use in re.findall(r'^use [^{]*\{[^}]*\}', text, re.MULTILINE)]
    brought = set(re.findall(r'[^\s{},]+', ' '.join(use[use.index('{'):] for use in uses)))
    uses += ['use Rattle.%s.{%s}' % (path, name) for more in (opens, names_only) for path, own in more.items() for name in own if name not in brought]
    names = re.search(r'^unfoldable pub opened : ℕ\nunfolding (.*?)^opened = ', text, re.MULTILINE | re.DOTALL).group(1).split()
    return uses, [name for name in names if name in brought] + [name for own in opens.values() for name in own if name not in names]


CASES = '''%s
use Rattle.octets.specs.Standard.{◌≡◌, sets}
use Rattle.requests.specs.Request.{under_cx}
use Rattle.calling.specs.Lent.{lent}
use Rattle.ndushavire.specs.Reads.{call_in, take_in}

-- all that the cases open
unfoldable pub opened : ℕ
unfolding %s
opened = 0

-- A call with a buffer of zeros: its word, what changed in table and vectors and where, the answer.
pub record Case : Type 0 where
  pub request : List ℕ
  pub table : List ℕ
  pub profile : List ℕ
  pub vectors : List ℕ
  pub room : ℕ
  pub peer : ℕ
  pub features : ℕ
  pub word : ℕ
  pub at : ℕ
  pub changed : List ℕ
  pub vectorsAt : ℕ
  pub vectorsChanged : List ℕ
  pub answer : List ℕ

abbrev pub Agrees : Case → Type 0
Agrees c =
    serve (lent c.request c.table c.profile c.vectors (replicate c.room 0) (under_cx c.peer c.features))
    ≡ record { call = call_in c.word; table = sets c.table c.at c.changed;
               vectors = sets c.vectors c.vectorsAt c.vectorsChanged; buffer = over c.answer (replicate c.room 0) }

abbrev pub Agree : List Case → Type 0
Agree [] = Unit
Agree (c ∷ cs) = Agrees c × Agree cs

-- A take-over: its word, what changed in the area and where.
pub record Take : Type 0 where
  pub area : List ℕ
  pub fresh : List ℕ
  pub profile : List ℕ
  pub word : ℕ
  pub at : ℕ
  pub changed : List ℕ

abbrev pub Took : Take → Type 0
Took c = take_over c.area c.fresh (length c.profile) ≡ came (take_in c.word) (sets c.area c.at c.changed)
'''
ASKED = '''%s
use Rattle.octets.specs.Standard.{◌≡◌}
use Rattle.ndushavire.specs.Reads.{call_in}

-- all that the calls of Sh open
unfoldable pub opened : ℕ
unfolding %s
opened = 0

-- A call of Sh with a buffer of zeros: its word, and the answer.
pub record Ask : Type 0 where
  pub request : List ℕ
  pub table : List ℕ
  pub profile : List ℕ
  pub room : ℕ
  pub peer : ℕ
  pub word : ℕ
  pub answer : List ℕ

abbrev pub Told : Ask → Type 0
Told c =
    sh_serve (lent c.request c.table c.profile (replicate c.room 0) c.peer)
    ≡ record { call = call_in c.word; buffer = over c.answer (replicate c.room 0) }
'''
PART = '''use Rattle.octets.specs.Standard.{refl, List, [], ◌∷◌, ◌++◌, replicate}
use Rattle.computed.proofs.%s.{%s, opened}
'''
OF_CASES, OF_ASKS = PART % ('Cases', 'Case, Agrees, Take, Took'), PART % ('Asked', 'Ask, Told')
# A declaration for each case, since antt counts the steps of each.
CASE = '''
abbrev pub case%(n)d : Case
case%(n)d = %(record)s

pub agrees%(n)d : Agrees case%(n)d
unfolding opened
agrees%(n)d = refl
'''
TAKE = '''
abbrev pub take%(n)d : Take
take%(n)d = %(record)s

pub took%(n)d : Took take%(n)d
unfolding opened
took%(n)d = refl
'''
ASK = '''
abbrev pub ask%(n)d : Ask
ask%(n)d = %(record)s

pub told%(n)d : Told ask%(n)d
unfolding opened
told%(n)d = refl
'''
ALL = '''use Rattle.octets.specs.Standard.{List, [], ◌∷◌}
use Rattle.computed.proofs.Cases.{Case, Agree}
%(uses)s

abbrev cases : List Case
cases = %(cases)s[]

-- the definitions and the independent program agree in every case
agree : Agree cases
agree = %(proof)stt%(end)s
'''


def modules(cases, takes, asks):
    uses, names = opened('worked_examples', OPENED, NAMED)
    yield 'Cases', CASES % ('\n'.join(uses), ' '.join(names))
    uses, names = opened('sh_example', {}, OF_SH)
    yield 'Asked', ASKED % ('\n'.join(uses), ' '.join(names))
    numbers, uses = range(len(cases)), []
    for part in range(0, len(cases), IN_A_PART):
        some = numbers[part:part + IN_A_PART]
        yield 'Part%d' % part, OF_CASES + ''.join(CASE % {'n': n, 'record': record(cases[n])} for n in some)
        uses.append('use Rattle.computed.proofs.Part%d.{%s}' % (part, ', '.join('case%d, agrees%d' % (n, n) for n in some)))
    yield 'Takes', OF_CASES + ''.join(TAKE % {'n': n, 'record': record(take)} for n, take in enumerate(takes))
    for part in range(0, len(asks), IN_A_PART):
        yield 'Asks%d' % part, OF_ASKS + ''.join(ASK % {'n': part + n, 'record': record(ask)} for n, ask in enumerate(asks[part:part + IN_A_PART]))
    yield 'All', ALL % {'uses': '\n'.join(uses), 'cases': ''.join('case%d ∷ ' % n for n in numbers),
                        'proof': ''.join('(agrees%d, ' % n for n in numbers), 'end': ')' * len(cases)}


def write(folder, cases, takes, asks):
    for part in ('src', 'specs', 'proofs'):
        os.makedirs('%s/%s' % (folder, part))
    texts = dict(modules(cases, takes, asks))
    lib = ''.join('pub mod %s\n' % name for name in texts)
    for name, text in [('src/lib.rt', '#![tactic(auto)]\n// Generated cases.\n'), ('specs/Lib.antt', ''), ('proofs/Lib.antt', lib)] + [
            ('proofs/%s.antt' % name, text) for name, text in texts.items()]:
        open('%s/%s' % (folder, name), 'w').write(text)


def copy(folder):
    """What crates/worked_examples and crates/sh_example use, and crates/ndushavire, and `computed` above them."""
    lines = dict(re.findall(r'^(\w+):(.*)', open('crates.txt').read(), re.MULTILINE))
    below = set((lines['worked_examples'] + lines['sh_example'] + ' taking ndushavire').split())
    used = ' ' + ' '.join(sorted(below))
    while more := {dep for name in below for dep in lines[name].split()} - below:
        below |= more
    with open(folder + '/crates.txt', 'w') as text:
        text.writelines('%s:%s\n' % (name, lines[name]) for name in below)
        text.write('computed:%s\n' % used)
    for name in below:  # what rt keeps of them here it finds by itself
        shutil.copytree('crates/' + name, '%s/crates/%s' % (folder, name), ignore=shutil.ignore_patterns('out', 'must-fail'))


def gather(reference, seed, count):
    """Picks from the seed's cases, and from more of them while something is missing: what still is after ROUNDS is no matter of luck."""
    cases = []
    for start in range(0, ROUNDS * GENERATED, GENERATED):
        made = streams.made(reference, 'calls', seed, GENERATED, start)
        told = streams.run(reference, 'outcomes', given=made)
        cases += [case for case in read(made, told) if small(case)]
        picked, missing, kinds = pick(cases, count)
        if count < len(WANTED) or len(picked) == count and not missing:
            break
    return picked, missing, kinds


def main():
    reference, seed, count = sys.argv[1], sys.argv[2], int(sys.argv[3])
    cases, missing, kinds = gather(reference, seed, count)
    takes, asks = pick_takes(reference, seed, count // 10), pick_asks(reference, seed, count // 10)
    print('definitions: seed %s, %d cases of %d kinds, %d take-overs, %d calls of Sh' % (seed, len(cases), kinds, len(takes), len(asks)), flush=True)
    if count < len(WANTED):
        print('too few to show every refusal, result, assignment type and step: a trial', flush=True)
    elif len(cases) < count or missing:
        sys.exit('definitions.py: this seed has %d cases, and none of: %s' % (len(cases), ', '.join(sorted(missing))))
    with tempfile.TemporaryDirectory() as folder:
        copy(folder)
        write(folder + '/crates/computed', cases, takes, asks)
        status = subprocess.run(['rt', 'check'], cwd=folder + '/crates/computed').returncode
        if status == 3:
            sys.exit('definitions.py: antt could not tell; nothing is known to differ')
        if status != 0:
            sys.exit('definitions.py: not agreed; SEED=%s shows it again' % seed)
        print('the definitions and the independent program agree in %d cases of %d kinds, in %d take-overs and in %d calls of Sh' % (
            len(cases), kinds, len(takes), len(asks)))


if __name__ == '__main__':
    main()
