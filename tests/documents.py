#!/usr/bin/env python3
"""documents.py SEED COUNT DRIVER..: answers of the Sh entry over random tables, whose documents an XML parser of its own (expat) reads.

Each is one document with the elements that were asked for, in the schema's order, without attributes, comments or white space between. Where a server name is
UTF-8 of characters that XML 1.0 allows, the parser reads it as it is stored; a CR in it is read as XML's line ends are, as LF. Where it is not, the parser
refuses the document, as SH.md says. In either case its bytes are those of that page. Status 0 if all is so, 1 if not."""
import random, struct, sys
import xml.parsers.expat
import streams
from trials.messages import SH, UDR, avp, message
from trials.want import Wrong

BATCH = 2000
ESCAPES = {ord('&'): b'&amp;', ord('<'): b'&lt;', ord('>'): b'&gt;', ord('"'): b'&quot;', ord("'"): b'&apos;'}
# What XML 1.0 allows besides CR, from the smallest encodings to the longest, with the ends of each range.
ALLOWED = [(0x9, 0xA), (0x20, 0x7F), (0x80, 0x7FF), (0x800, 0xD7FF), (0xE000, 0xFFFD), (0x10000, 0x10FFFF)]
# And some of what it does not: controls, lone and overlong bytes, surrogates, the last two of a plane.
REFUSED = [b'\0', b'\1', b'\b', b'\x0b', b'\x0c', b'\x0e', b'\x1f', b'\x80', b'\xbf', b'\xc0\x80', b'\xc3', b'\xe0\x80\x80', b'\xed\xa0\x80',
           b'\xed\xbf\xbf', b'\xef\xbf\xbe', b'\xef\xbf\xbf', b'\xf4\x90\x80\x80', b'\xf8', b'\xff']


def character(draw):
    kind = draw.randrange(10)
    if kind < 3:
        return draw.choice('&<>"\'')
    if kind < 4:
        return draw.choice([']]>', '&amp;', '<!--', '<?', '&#38;', '</SCSCFName>', '<![CDATA['])
    low, high = draw.choice(ALLOWED)
    return chr(draw.choice([low, high, draw.randint(low, high)]))


def name_of(draw):
    """A server name of 0 to 96 bytes: what an XML parser should read of it, None if it should refuse it; its bytes."""
    room = draw.choice([0, 1, 2, 20, 95, 96, draw.randint(1, 96)])
    kind, name = draw.randrange(20), b''
    special = draw.choice(REFUSED) if kind == 0 else b'\r' + draw.choice([b'', b'\n', b'\r']) if kind == 1 else b''
    if len(special) > room:
        special = b''
    while True:
        more = character(draw).encode()
        if len(name) + len(more) + len(special) > room:
            break
        name += more
    cuts = [at for at in range(len(name) + 1) if at == len(name) or name[at] & 0xC0 != 0x80]  # between characters
    at = draw.choice(cuts)
    name = name[:at] + special + name[at:]
    read = None if special and kind == 0 else name.replace(b'\r\n', b'\n').replace(b'\r', b'\n')
    return read, name


def sealed(block):
    words = struct.unpack('>127I', bytes(block[:508]))
    return bytes(block[:508]) + struct.pack('>I', -sum(words) & 0xFFFFFFFF)


def put(block, length_at, at, name):
    block[length_at] = len(name)
    block[at:at + len(name)] = name


def table_of(draw, lines):
    edition, issue = draw.choice([1, 2]), draw.getrandbits(32)
    header = bytearray(512)
    header[0], header[1], header[8:12] = 1, edition, struct.pack('>I', len(lines))
    put(header, 13, 16, b'hss.isle')
    put(header, 14, 80, b'isle')
    blocks = [header]
    for number, (public, state, pending, name) in enumerate(lines, 1):
        block = bytearray(512)
        block[0], block[1], block[4:8], block[8], block[9] = 2, edition, struct.pack('>I', number), state, pending | draw.choice([0, 2, 4, 6])
        put(block, 13, 16, public)
        put(block, 14, 144, b'private%d@isle' % number)
        put(block, 15, 272, name)
        blocks.append(block)
    if edition == 2:
        for block in blocks:
            block[408:412] = struct.pack('>I', issue)
    return b''.join(map(sealed, blocks))


def line_of(draw, public):
    """A line, and what is to be read of its name. In state 0 there is a name exactly if it is pending."""
    read, name = name_of(draw)
    state = draw.choice([0, 1, 2]) if name else 0
    pending = bool(name) if state == 0 else draw.choice([0, 1])
    return (public, state, int(pending), name), read


def request_of(public, references):
    body = avp(263, b'vm.isle;1') + avp(260, avp(266, 10415) + avp(258, SH)) + avp(277, 1) + avp(264, b'vm.isle')
    body += avp(296, b'isle') + avp(283, b'isle') + avp(700, avp(601, public, 10415), 10415)
    body += b''.join(avp(703, one, 10415) for one in references)
    return message(UDR, body, SH, hop=1, end=2)


def asked_of(draw):
    """A case, and what its document should be: its bytes, the name as a parser reads it, the state; either of them None if it is not there."""
    publics = sorted({b'sip:line%d@isle' % draw.randrange(1000) for _ in range(draw.choice([1, 1, 2, 3]))})
    lines = [line_of(draw, public) for public in publics]
    (public, state, pending, name), read = draw.choice(lines)
    references = [draw.choice([11, 12]) for _ in range(draw.choice([1, 2, 2, 3]))]
    told_name = name if 12 in references and name else None
    told_state = (3 if state == 0 and pending else state) if 11 in references else None
    escaped = b''.join(ESCAPES.get(byte, bytes([byte])) for byte in told_name or b'')
    data = b'<?xml version="1.0" encoding="UTF-8"?><Sh-Data><Sh-IMS-Data>'
    data += b'<SCSCFName>%s</SCSCFName>' % escaped if told_name else b''
    data += b'<IMSUserState>%d</IMSUserState>' % told_state if told_state is not None else b''
    data += b'</Sh-IMS-Data></Sh-Data>'
    case = streams.case(10, draw.randrange(256), request_of(public, references), table_of(draw, [line for line, _ in lines]), b'', 36864)
    return case, data, (read if told_name else b'', told_name is not None), told_state


def parsed(data):
    """The row of what a document holds, as the parser tells it; None if it refuses the document."""
    told, text = [], []

    def flush():
        if text:
            told.append(''.join(text))
            text.clear()

    def start(name, attributes):
        flush()
        told.append(('start', name, attributes))

    def end(name):
        flush()
        told.append(('end', name))

    parser = xml.parsers.expat.ParserCreate()
    parser.StartElementHandler, parser.EndElementHandler, parser.CharacterDataHandler = start, end, text.append
    parser.CommentHandler = parser.StartCdataSectionHandler = parser.ProcessingInstructionHandler = lambda *_: told.append('something else')
    parser.XmlDeclHandler = lambda version, encoding, _: told.append((version, encoding))
    try:
        parser.Parse(data, True)
    except xml.parsers.expat.ExpatError:
        return None
    return told


def meant(name, is_told, state):
    element = lambda of, content: [('start', of, {}), *([content] if content else []), ('end', of)]
    row = [('1.0', 'UTF-8'), ('start', 'Sh-Data', {}), ('start', 'Sh-IMS-Data', {})]
    row += element('SCSCFName', name.decode()) if is_told else []
    row += element('IMSUserState', str(state)) if state is not None else []
    return row + [('end', 'Sh-IMS-Data'), ('end', 'Sh-Data')]


def judge(case, outcome, data, name, state):
    """1 if the document is refused as it should be, else 0."""
    answer = streams.answer(case, outcome)
    found = [data for kind, data in streams.avps(answer[20:]) if kind == (702, 10415)]
    if outcome.word >> 32 or found != [data]:
        raise Wrong('word %x, and %r instead of %r' % (outcome.word, found, data))
    (read, is_told), told = name, parsed(data)
    if is_told and read is None:
        if told is not None:
            raise Wrong('the parser takes %r' % data)
        return 1
    if told != meant(read, is_told, state):
        raise Wrong('the parser reads %r as %r' % (data, told))
    return 0


def main():
    seed, count, driver = int(sys.argv[1]), int(sys.argv[2]), sys.argv[3:]
    draw, done, refused = random.Random(seed), 0, 0
    try:
        while done < count:
            asked = [asked_of(draw) for _ in range(min(BATCH, count - done))]
            stream = b''.join(one[0] for one in asked)
            outcomes = list(streams.outcomes(streams.run(*driver, given=stream)))
            if len(outcomes) != len(asked):
                raise Wrong('%d outcomes for %d cases' % (len(outcomes), len(asked)))
            for case, outcome, (_, *expected) in zip(streams.cases(stream), outcomes, asked):
                refused += judge(case, outcome, *expected)
                done += 1
    except Wrong as wrong:
        print('documents.py: seed %d, case %d: %s' % (seed, done, wrong), file=sys.stderr)
        return 1
    if refused == 0 and count >= 1000:
        print('documents.py: no name that XML does not allow was tried', file=sys.stderr)
        return 1
    print('documents.py: seed %d, %d documents: %d read as they were meant, %d refused for a name that XML does not allow' % (
        seed, done, done - refused, refused))
    return 0


if __name__ == '__main__':
    sys.exit(main())
