#!/usr/bin/env python3
"""cases.py REFERENCE CRATE: writes CRATE/stdin, the cases that the program `cases` runs, and CRATE/stdout, their outcomes.

Both are the independent program's: it makes the cases and says their outcomes. Chosen are small cases: for each of its deliberate faults
one that shows it; of each result one, and then more: a refusal with what it returns besides; a command with its result; of a SAR past the
reading rules also its type, and where it succeeds or meets a wrong state also keep, the state, whether it names many identities and whether
it is about a set; of a MAR that succeeds the state, whether it is about a set and whether the record changes; of a UAR whether it is about
a set; of a UDR whether it asks for state, name or another, and of a success the state and whether a name is stored; of a report how it ends and what
it counts; of an export or import how many lines there are, and whether some have a set, a quote in a name or a name near the last that there is; of all the
edition of the table or area, and that of the base standard. After them stand the requests of real software in captured/, each over
the table and the vectors that their heads describe. Nothing here is random: a second run writes the same bytes."""
import collections, pathlib, re, struct, sys

import streams
from streams import answer, avps, made, outcomes, run

MOST = 930_000  # bytes of cases
CX = 10415
RULES = tuple(('B', n) for n in (5001, 5004, 5014, 3009, 5011, 3008, 3001, 3007))
KNOWN = {(n, 0) for n in (263, 260, 277, 264, 296, 293, 283, 1, 284, 282)} | {(n, CX) for n in (601, 600, 623, 602, 614, 624, 607, 612, 628, 700, 703)}
UNCALLED = 'Plain', 'Row', 'RestOfRow'  # how the faults of entries begin that the program does not call: the plain engine, and a row of requests
EFFECTS = ('B', 2001), ('X', 2004), ('X', 5007)


def number(data):
    return struct.unpack('>I', data)[0] if len(data) == 4 else None


def month(case, outcome):
    """What a report comes to: its number, the refusals in it, and whether records and vectors changed; and the commands that it counts."""
    if outcome.word >> 48 == 15:
        return (4, outcome.word), 0
    words = struct.unpack('>145Q', streams.after(case, outcome, 'report')[:1160])
    changed = tuple(streams.changes(case, outcome)[name][1] != b'' for name in ('table', 'vectors'))
    return (4, outcome.word, tuple(map(bool, words[5:20])), changed), tuple(any(words[at:at + 25]) for at in range(20, 145, 25))


def edition(case):
    """Byte 1 of its header block, table or area, if that is one of the two editions; and which base standard its peer follows, if that is one of the two."""
    held = streams.slices(case)
    said = held.get('header', held.get('table', held.get('area', b'')))[1:2]
    return said if said in (b'\1', b'\2') else b'', case.entry in streams.NUMBERS and case.numbers[0] == 6733


def answered(case, outcome):
    """The result of an answer, and what it carries."""
    said, carried = None, []
    for kind, data in avps(answer(case, outcome)[20:]):
        if kind == (268, 0):
            said = 'B', number(data)
        elif kind == (297, 0):
            said = 'X', number(dict(avps(data))[298, 0])
        elif kind == (279, 0):
            carried.append((279, next((k if k in KNOWN else 0 for k, _ in avps(data)), None)))
        elif kind[0] in (1, 602, 603, 606, 612, 628):
            carried.append(kind)
    return said, tuple(carried)


def box(case, outcome):
    """What a call of Sh comes to: its result, what was asked, and of a success the line's state, whether it is pending, whether it stores a name; and what
    its answer carries."""
    held = streams.slices(case)
    given, (said, carried) = list(avps(held['request'][20:])), answered(case, outcome)
    asked = {number(data) if number(data) in (11, 12) else 0 for kind, data in given if kind == (703, CX)}
    result = 10, said, tuple(sorted(asked)) if said in (('X', 5001), ('X', 5100), ('B', 2001)) else ()
    if said == ('B', 2001):
        name = dict(avps(dict(given)[700, CX]))[601, CX]
        result += streams.told(held['table'], name)
    return result, carried


def listed(case, outcome):
    """What an export or import comes to: its refusal with the block or line, or how many lines there are, up to three; and of the list that is written or read
    whether some line has a set, some name a quote, and some name is near the last that there is."""
    number, value = outcome.word >> 48, outcome.word & 0xFFFFFFFF
    if case.entry == 9:
        text = streams.slices(case)['list']
    else:
        text = b'' if number else streams.after(case, outcome, 'list')[:value]
    told = any(not line.endswith(b',0') for line in text.split(b'\r\n')[1:-1]), bool(re.search(b'[^,]""', text)), b'~' * 126 in text
    return (case.entry, outcome.word if number else min(text.count(b'\n'), 3)), (*told, case.fill % 6 if number == 5 else 0)


def row(case, outcome):
    """What a case comes to, and what its answer carries."""
    if case.entry == 4:
        return month(case, outcome)
    if case.entry in (8, 9):
        return listed(case, outcome)
    if outcome.word >> 48 or case.entry not in (2, 10):
        several = case.entry not in (2, 10) or outcome.word >> 48 >= 5  # a bad block has many causes
        return (case.entry, outcome.word, streams.sizes(case).get('request', 0) > 16384), case.fill % 6 if several else 0
    if case.entry == 10:
        return box(case, outcome)
    held = streams.slices(case)
    asked, table = held['request'], held['table']
    said, carried = answered(case, outcome)
    command, given = int.from_bytes(asked[5:8], 'big'), list(avps(asked[20:]))
    result = command if command in (300, 301, 302, 303) else 0, said
    if command == 301 and said not in RULES:
        names = [data for kind, data in given if kind == (601, CX)]
        result += (next((number(data) for kind, data in given if kind == (614, CX)), None),)
        if said in EFFECTS:
            of_first = (streams.state(table, names[0]), streams.set_size(table, names[0]) > 1) if names else None
            result += len(names) > 1, table[12], of_first
    if command == 303 and said == ('B', 2001):
        named = dict(given)[601, CX]
        result += streams.state(table, named), streams.set_size(table, named) > 1, streams.changes(case, outcome)['table'][1] == b''
    if command == 300 and (601, CX) in dict(given):
        result += streams.set_size(table, dict(given)[601, CX]),
    return result, carried


TABLES = 'table', 'area', 'fresh'


def longest(sizes, *names):
    return max(sizes.get(name, 0) for name in names)


def fits(case):
    """Whether the program has room for a case, 40,000 bytes for a slice and 65,536 for all, and records and vectors are few: 18 vectors show
    that at most 16 are sent."""
    sizes = streams.sizes(case)
    few = longest(sizes, *TABLES) <= 4096 and sizes.get('vectors', 0) <= 18 * 512
    return max(sizes.values()) <= 40000 and sum(sizes.values()) <= 65536 and few


def small(case):
    sizes = streams.sizes(case)
    request = sizes.get('request', sizes.get('requests', 0) // 4)  # some requests in a row
    files = longest(sizes, 'vectors', 'list', *TABLES) <= 2048 and sizes.get('profile', 0) <= 700
    return files and (request <= 900 or request > 16384)


def fitting(reference):
    """Cases that fit, the smallest first."""
    found = []
    few = [(kind, (1,), 4000) for kind in ('tables', 'vectors', 'reports', 'moves', 'takes')]
    for kind, seeds, count in (*few, ('lists', (1,), 6000), ('voicemail', (1,), 10000), ('calls', range(1, 6), 20000)):
        for seed in seeds:
            found += [case for case in streams.cases(made(reference, kind, seed, count)) if fits(case)]
    return sorted(found, key=lambda case: len(case.whole))


def outcomes_of(reference, found):
    return list(outcomes(run(reference, 'outcomes', given=b''.join(case.whole for case in found))))


def showing(reference, fault, found, told):
    """The first case that shows a fault, with its outcome, if one does; most are shown by one of the first thousand."""
    at, count = 0, 1000
    while at < len(found):
        some = found[at:at + count]
        wrong = outcomes(run(reference, 'outcomes', '--fault', fault, given=b''.join(case.whole for case in some)))
        for case, right, other in zip(some, told[at:at + count], wrong):
            if right.whole != other.whole:
                return case, right
        at, count = at + count, 2 * count


def telling(reference, found, told):
    """For each deliberate fault of the independent program the first case that shows it, unless one for a fault before does."""
    kept = []
    for line in run(reference, 'faults').decode().splitlines():
        fault = line.split()[0]
        if fault.startswith(UNCALLED) or kept and showing(reference, fault, *zip(*kept)):
            continue
        case = showing(reference, fault, found, told)
        if case is None:
            print(f'no case shows {fault}')
        else:
            kept.append(case)
            yield [case[0].whole]


def chosen(reference):
    """The smallest case for each fault and for each result, those of lists first, of which many have several records; then for each result over each edition,
    then with what the answer carries, and more while there is room."""
    found = fitting(reference)
    told = outcomes_of(reference, found)
    results, editions, rows = (collections.defaultdict(list) for _ in range(3))
    for case, outcome in zip(found, told):
        if small(case):
            result, carried = row(case, outcome)
            results[result].append(case.whole)
            editions[result, edition(case)].append(case.whole)
            rows[result, carried, edition(case)].append(case.whole)
    taken, left = {}, MOST
    lists_first = [results[result] for result in sorted(results, key=lambda result: result[0] not in (8, 9))]
    for groups in telling(reference, found, told), lists_first, editions.values(), rows.values(), (group[1:] for group in rows.values()):
        for group in groups:
            if group and len(group[0]) <= left and not any(case in taken for case in group):
                taken[group[0]] = None
                left -= len(group[0])
        print(f'{len(taken)} cases of {len(results)} results and {len(rows)} rows, room for {left} bytes more')
    return list(taken)


def summed(block):
    return block + struct.pack('>I', -sum(struct.unpack('>127I', block)) & 0xFFFFFFFF)


def header(count, networks):
    places = b''.join((bytes([len(n)]) + n).ljust(32, b'\0') for n in networks)
    fields = struct.pack('>BBHIIBBBB', 1, 1, 0, 0, count, 1, 8, 4, len(networks))
    return summed((fields + b'hss.isle'.ljust(64, b'\0') + b'isle'.ljust(64, b'\0') + places).ljust(508, b'\0'))


def record(number, name, state=0, bits=0, mandatory=(), optional=(), server=b'', profile=(0, 0)):
    public, private = b'sip:' + name + b'@isle', name + b'@isle'
    fields = struct.pack('>BBHIBBBBBBBB', 2, 1, 0, number, state, bits, 1, len(mandatory), len(optional), len(public), len(private), len(server))
    names = public.ljust(128, b'\0') + private.ljust(128, b'\0') + server.ljust(96, b'\0')
    words = b''.join(struct.pack(f'>{len(w)}I', *w).ljust(16, b'\0') for w in (mandatory, optional))
    return summed((fields + names + words + struct.pack('>IH', *profile)).ljust(508, b'\0'))


def vector(name, fill):
    """An unused vector, its RAND, AUTN, XRES of 8 bytes and keys all of one byte."""
    private = name + b'@isle'
    fields = struct.pack('>BBBB', 3, 0, 8, len(private)) + private.ljust(128, b'\0')
    return summed((fields + bytes([fill]) * 32 + (bytes([fill]) * 8).ljust(16, b'\0') + bytes([fill]) * 32).ljust(508, b'\0'))


def vectors(request):
    """A MAR finds a foreign vector and one of its User-Name: Bob, of whom 20 are asked, has 17 and User3 none. Other requests find no vector."""
    name = dict(avps(request[20:])).get((1, 0), b'').replace(b'@isle', b'')
    if int.from_bytes(request[5:8], 'big') != 303:
        return b''
    count = {b'bob': 17, b'user3': 0}.get(name, 1)
    return vector(b'alice', 99) + b''.join(vector(name, n + 1) for n in range(count))


def real(folder):
    """Alice was never registered, Bob is, Carol is held by another server in state 2, Erin has unregistered services."""
    table = b''.join((
        header(8, (b'isle', b'guest.example')),
        record(1, b'alice', mandatory=(1, 2), optional=(3,)),
        record(2, b'bob', state=1, server=b'sip:scscf1.isle:6060'),
        record(3, b'carol', state=2, server=b'sip:scscf3.isle:6060'),
        record(4, b'erin', bits=4, mandatory=(1, 2), profile=(0, 432)),
        record(5, b'user0', profile=(432, 434)),
        record(6, b'user1'),
        record(7, b'user2'),
        record(8, b'user3')))
    profile = b'0' * 866
    for path in sorted(folder.glob('*.hex')):
        lines = [line for line in path.read_text().splitlines() if not line.startswith('#')]
        request = bytes.fromhex(''.join(lines))
        yield streams.case(2, 0, request, table, profile, vectors(request), 36864)


def main():
    reference, crate = sys.argv[1], pathlib.Path(sys.argv[2])
    taken = chosen(reference)
    sent = list(real(pathlib.Path(__file__).parent / 'captured'))
    stdin = b''.join(taken + sent)
    (crate / 'stdin').write_bytes(stdin)
    (crate / 'stdout').write_bytes(run(reference, 'outcomes', given=stdin))
    print(f'{len(taken)} cases and {len(sent)} requests of real software, {len(stdin)} bytes')


if __name__ == '__main__':
    main()
