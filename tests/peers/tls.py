#!/usr/bin/env python3
"""tls.py: a call server abroad, which comes to the relay by TLS and asks for a line; without TLS or a certificate it is turned away."""
import os
import socket
import ssl
import struct
import sys

RELAY = "192.0.2.2"


def avp(code, data, vendor=0):
    if isinstance(data, int):
        data = struct.pack(">I", data)
    head = struct.pack(">II", code, (0xC0 if vendor else 0x40) << 24 | 8 + (4 if vendor else 0) + len(data))
    return head + (struct.pack(">I", vendor) if vendor else b"") + data + b"\0" * (-len(data) % 4)


def message(command, application, avps):
    return struct.pack(">IIIII", 1 << 24 | 20 + len(avps), 0xC0 << 24 | command, application, 1, int.from_bytes(os.urandom(4), "big")) + avps


def application():
    return avp(260, avp(266, 10415) + avp(258, 16777216))


def greeting(name):
    body = avp(264, name) + avp(296, b"abroad") + avp(257, b"\0\1\xc0\0\2\x0a") + avp(266, 10415) + avp(269, b"trial") + avp(265, 10415) + application()
    return struct.pack(">IIIII", 1 << 24 | 20 + len(body), 0x80 << 24 | 257, 0, 1, 1) + body


def question(name):
    return message(302, 16777216, avp(263, name + b";1;1") + avp(264, name) + avp(296, b"abroad") + avp(283, b"isle") + application() + avp(277, 1) +
                   avp(601, b"sip:erin@isle", 10415))


def answer(stream):
    """A whole message, or None if the relay hangs up."""
    data = b""
    try:
        while len(data) < 20 or len(data) < struct.unpack(">I", data[:4])[0] & 0xFFFFFF:
            more = stream.recv(65536)
            if not more:
                return None
            data += more
    except (ssl.SSLError, ConnectionError, socket.timeout):
        return None
    return data


def secured(with_certificate=True):
    context = ssl.SSLContext(ssl.PROTOCOL_TLS_CLIENT)
    context.load_verify_locations("ca.pem")
    context.hostname_checks_common_name = True
    context.check_hostname = False
    if with_certificate:
        context.load_cert_chain("scscf.abroad.pem", "scscf.abroad.key")
    return context.wrap_socket(socket.create_connection((RELAY, 5868), 10))


def talk(stream, name):
    """The answer to a question, or None if the relay turns us away."""
    try:
        stream.sendall(greeting(name))
        hello = answer(stream)
        if hello is None or struct.pack(">IIII", 268, 0x4000000C, 2001, 264)[:12] not in hello:
            return None
        stream.sendall(question(name))
        return answer(stream)
    except (ssl.SSLError, ConnectionError):
        return None


def told(stream, name, wanted, what):
    stream.settimeout(10)
    got = talk(stream, name)
    if (got is not None) != wanted:
        print("tls.py: %s: %s" % (what, "answered" if got else "turned away"), file=sys.stderr)
        sys.exit(1)
    if got is not None and b"hss.isle" not in got:
        print("tls.py: %s: answered by somebody else" % what, file=sys.stderr)
        sys.exit(1)
    print("tls.py: %s: %s" % (what, "answered by hss.isle" if got else "turned away"))
    stream.close()


told(secured(), b"scscf.abroad", True, "by TLS, with a certificate")
told(socket.create_connection((RELAY, 3868), 10), b"scscf.abroad", False, "the same name without TLS")
told(secured(with_certificate=False), b"scscf.abroad", False, "by TLS, without a certificate")
told(secured(), b"other.abroad", True, "by TLS, under another name than the certificate's, which the relay does not compare")
told(secured(), b"scscf.elsewhere", False, "a name that is not listed")
told(socket.create_connection((RELAY, 3868), 10), b"scscf2.isle", True, "from the isle's own network, without TLS")
