"""Diameter messages, written and read: what is sent to the daemon, and what is looked for in its answers."""
import struct

from trials.want import Wrong, want

CX, SH, CER, DWR, DPR, UAR, SAR, LIR, MAR, UDR = 16777216, 16777217, 257, 280, 282, 300, 301, 302, 303, 306
SERVER = b"sip:scscf1.isle:6060"


def avp(code, data, vendor=0, flags=0x40):
    if isinstance(data, int):
        data = struct.pack(">I", data)
    head = struct.pack(">II", code, (flags | (0x80 if vendor else 0)) << 24 | 8 + (4 if vendor else 0) + len(data))
    return head + (struct.pack(">I", vendor) if vendor else b"") + data + b"\0" * (-len(data) % 4)


def cx(code, data):
    return avp(code, data, 10415)


def message(command, avps, application=CX, flags=0xC0, hop=0, end=0):
    return struct.pack(">IIIII", 1 << 24 | 20 + len(avps), flags << 24 | command, application, hop, end) + avps


def avps_of(data):
    found, at = [], 0
    while at < len(data):
        code, word = struct.unpack_from(">II", data, at)
        length, head = word & 0xFFFFFF, 12 if word >> 31 else 8
        want(length >= head and at + length <= len(data), "an answer with an AVP that is cut off")
        found.append((code, data[at + head:at + length]))
        at += (length + 3) // 4 * 4
    return found


def result(answer):
    """B and the number, or X and the number."""
    for code, data in avps_of(answer[20:]):
        if code == 268:
            return "B%d" % struct.unpack(">I", data)
        if code == 297:
            return "X%d" % dict((c, struct.unpack(">I", d)[0]) for c, d in avps_of(data))[298]
    raise Wrong("an answer without a result")


def all_of(answer, code):
    return [data for found, data in avps_of(answer[20:]) if found == code]


def rands(answer):
    """What the vectors of an answer begin with: RAND and AUTN."""
    return [dict(avps_of(item))[609] for item in all_of(answer, 612)]


ends = 0


def fresh_end():
    global ends
    ends += 1
    return ends


def base(command, avps=b"", flags=0x80, host=b"scscf1.isle", **more):
    return message(command, avp(264, host) + avp(296, b"isle") + avps, application=0, flags=flags, **more)


def cer(application=CX, **more):
    return base(CER, avp(257, b"\0\1\x7f\0\0\1") + avp(266, 10415) + avp(269, b"client", flags=0) +
                avp(260, avp(266, 10415) + avp(258, application)), **more)


def application(vendors=1, of=CX):
    return avp(260, avp(266, 10415) * vendors + avp(258, of))


def supported(bits, listed=1, vendor=10415, marked=True):
    """Supported-Features; without M, and of the bits that a server supports, it is that server's own list."""
    word = lambda number: struct.pack(">I", number)
    return avp(628, avp(266, vendor) + avp(629, word(listed), 10415, 0) + avp(630, word(bits), 10415, 0), 10415, 0x40 if marked else 0)


def request(command, own, end=None, hop=None, route=b"", flags=0xC0, host=b"scscf1.isle", vendors=1, of=CX):
    end = fresh_end() if end is None else end
    head = avp(263, b"scscf1.isle;1;%d" % end) + avp(264, host) + avp(296, b"isle") + avp(283, b"isle")
    head += application(vendors, of) + avp(277, 1)
    return message(command, head + own + route, of, end=end, hop=end if hop is None else hop, flags=flags)


def public(user):
    return cx(601, b"sip:user%d@isle" % user)


def private(user):
    return avp(1, b"user%d@isle" % user)


def lir(user, **more):
    return request(LIR, public(user), **more)


def uar(user, **more):
    return request(UAR, public(user) + private(user) + cx(600, b"isle"), **more)


def sar(user, kind, **more):
    return request(SAR, public(user) + private(user) + cx(602, SERVER) + cx(614, kind) + cx(624, 0), **more)


def mar(user, many=1, **more):
    return request(MAR, public(user) + private(user) + cx(607, many) + cx(612, cx(608, b"Digest-AKAv1-MD5")) + cx(602, SERVER), **more)


def udr(user, references=(11, 12), of=SH, **more):
    return request(UDR, cx(700, public(user)) + b"".join(cx(703, one) for one in references), of=of, **more)


def document(state=None, name=b""):
    """What User-Data holds of a state and a server name, those that were asked for and are there."""
    told = b"<SCSCFName>%s</SCSCFName>" % name if name else b""
    told += b"<IMSUserState>%d</IMSUserState>" % state if state is not None else b""
    return b'<?xml version="1.0" encoding="UTF-8"?><Sh-Data><Sh-IMS-Data>%s</Sh-IMS-Data></Sh-Data>' % told
