"""The streams of cases and outcomes, in the form that reference/README.md gives them under "Streams", and AVPs."""
import collections, struct, subprocess

# The slices that each entry takes, with a star behind those that it may write to.
ENTRIES = {1: 'table profile'.split(), 2: 'request table* profile vectors* buffer*'.split(), 3: ['vectors'],
           4: 'requests table* profile vectors* buffer* report*'.split(), 5: 'table* profile'.split(), 6: 'table* profile'.split(),
           7: 'area* fresh profile'.split(), 8: 'table profile list*'.split(), 9: 'list header profile table*'.split(),
           10: 'request table profile buffer*'.split(), 11: 'requests table* profile vectors* answers* words*'.split(),
           12: 'request table* profile vectors* buffer*'.split()}
# The numbers behind them, where a case is given none: the peer's edition of the base standard, and the features that are supported, of which Sh is not told.
NUMBERS = {2: (3588, 0), 4: (3588, 0), 10: (3588,), 11: (3588, 0), 12: (3588, 0)}
WRITTEN, NOISY = 1 << 31, 1 << 30  # beside a slice's length
# What a slice of noise holds before the call, from any of its first 256 bytes on.
NOISE = bytes(((n * 2654435761) & 0xFFFFFFFF) >> 24 for n in range(256 + 65536))

Case = collections.namedtuple('Case', 'whole entry fill words numbers')  # its own bytes; a word for each slice
Outcome = collections.namedtuple('Outcome', 'whole word changes')  # of each change the first changed byte, and the bytes from it


def run(reference, *words, given=b''):
    return subprocess.run([reference, *words], input=given, stdout=subprocess.PIPE, check=True).stdout


def made(reference, kind, seed, count, start=0):
    return run(reference, 'gen', '--kind', kind, '--seed', str(seed), '--from', str(start), '--count', str(count))


def carried(word):
    """How many bytes of a slice a case carries."""
    return 0 if word & NOISY else word % NOISY


def cases(stream):
    at = 0
    while at < len(stream):
        entry, fill, slices, numbers = stream[at:at + 4]
        words = struct.unpack_from('>%dI' % (slices + numbers), stream, at + 4)
        start, at = at, at + 4 + 4 * len(words) + sum(map(carried, words[:slices]))
        yield Case(stream[start:at], entry, fill, words[:slices], words[slices:])


def outcomes(stream):
    at = 0
    while at < len(stream):
        start, (word, _, count), changes = at, struct.unpack_from('>QIB', stream, at), []
        at += 13
        for _ in range(count):
            first, length = struct.unpack_from('>II', stream, at)
            at += 8 + length
            changes.append((first, stream[at - length:at]))
        yield Outcome(stream[start:at], word, changes)


def case(entry, fill, *slices, numbers=None):
    """The bytes of a case: of a slice its bytes, or how many of noise it holds."""
    numbers = NUMBERS.get(entry, ()) if numbers is None else numbers
    words = [(slice | NOISY if isinstance(slice, int) else len(slice)) | (WRITTEN if '*' in name else 0)
             for name, slice in zip(ENTRIES[entry], slices)]
    head = struct.pack('>BBBB%dI' % (len(words) + len(numbers)), entry, fill, len(words), len(numbers), *words, *numbers)
    return head + b''.join(slice for slice in slices if not isinstance(slice, int))


def sizes(case):
    """The lengths of its slices by name."""
    return {name.strip('*'): word % NOISY for name, word in zip(ENTRIES[case.entry], case.words)}


def slices(case):
    """What its slices hold before the call, by name."""
    held, at = {}, len(case.whole) - sum(map(carried, case.words))
    for name, word in zip(ENTRIES[case.entry], case.words):
        size = word % NOISY
        held[name.strip('*')] = NOISE[case.fill:case.fill + size] if word & NOISY else case.whole[at:at + size]
        at += carried(word)
    return held


def changes(case, outcome):
    """What changed in the slices that its entry may write to, by name."""
    return dict(zip([name.strip('*') for name in ENTRIES[case.entry] if '*' in name], outcome.changes))


def after(case, outcome, name):
    """What a slice that its entry may write to holds after the call."""
    held, (first, written) = bytearray(slices(case)[name]), changes(case, outcome)[name]
    held[first:first + len(written)] = written
    return bytes(held)


def answer(case, outcome):
    """The answer of a decision; nothing if it was refused."""
    length = 0 if outcome.word >> 48 else outcome.word & 0xFFFFFFFF  # above it stands the place of the AVP at fault
    return after(case, outcome, 'buffer')[:length]


def records(area):
    """The blocks of the records of the table at the front of an area; none past its count."""
    count = int.from_bytes(area[8:12], 'big')
    return [area[at:at + 512] for at in range(512, min(512 * (count + 1), len(area) - 511), 512)]


def past(area):
    """What stands past that table."""
    return area[512 * (int.from_bytes(area[8:12], 'big') + 1):]


def state(table, public):
    """The state of a public identity's record."""
    return next((b[8] for b in records(table) if b[16:16 + b[13]] == public), None)


def told(table, public):
    """What Sh tells of a public identity's record: state, pending, and whether a server name is stored."""
    return next((b[8], b[9] & 1, b[15] > 0) for b in records(table) if b[16:16 + b[13]] == public)


def set_size(table, public):
    """How many records the set of a public identity has: 0 without a set, 1, or 2 for several."""
    blocks = records(table)
    sets = [(b[144:144 + b[14]], b[406:408]) for b in blocks]
    own = next((s for b, s in zip(blocks, sets) if b[16:16 + b[13]] == public), None)
    return min(sets.count(own), 2) if own and own[1] != b'\0\0' else 0


def avps(body):
    """Code and vendor (0 without V), and data, of each AVP up to one whose length is wrong."""
    at = 0
    while at + 8 <= len(body):
        code, rest = struct.unpack_from('>II', body, at)
        length, head = rest & 0xFFFFFF, 12 if rest >> 31 else 8
        if length < head or at + length > len(body):
            return
        vendor = struct.unpack_from('>I', body, at + 8)[0] if rest >> 31 else 0
        yield (code, vendor), body[at + head:at + length]
        at += (length + 3) // 4 * 4
