#!/usr/bin/env python3
"""phone.py VECTORS TABLE: two phones of the isle, alice's and bob's, at Kamailio's I-CSCF, over the files of a running daemon. They register with the
answers of their cards, call each other, register anew and leave. It says each step, and ends with status 1 at the first that goes wrong."""
import base64
import hashlib
import re
import socket
import struct
import sys
import time

ICSCF = ("192.0.2.3", 4060)
VECTORS, TABLE = sys.argv[1:3]
steps = 0


class Wrong(Exception):
    pass


def want(condition, what):
    if not condition:
        raise Wrong(what)


def blocks(path):
    with open(path, "rb") as file:
        data = file.read()
    return [data[at:at + 512] for at in range(0, len(data), 512)]


def line_of(public):
    """State, pending and server, as the table on disk has them."""
    for b in blocks(TABLE)[1:]:
        if b[16:16 + b[13]] == public.encode():
            return b[8], b[9] & 1, b[272:272 + b[15]].decode()
    raise Wrong("no line " + public)


def card(challenge, name):
    """What the card answers to RAND and AUTN: the XRES of the one vector that has them, which must be marked as used."""
    for b in blocks(VECTORS):
        if b[132:164] == challenge:
            want(b[4:4 + b[3]] == name.encode(), "a challenge for somebody else")
            want(b[1] == 1, "a challenge that is unused on disk")
            return b[164:164 + b[2]]
    raise Wrong("a challenge that is no vector's")


def used(name):
    return sum(b[1] for b in blocks(VECTORS) if b[4:4 + b[3]] == name.encode())


def md5(*parts):
    return hashlib.md5(b":".join(p if isinstance(p, bytes) else p.encode() for p in parts)).hexdigest()


class Phone:
    def __init__(self, name, address):
        self.name, self.address, self.count = name, address, 0
        self.socket = socket.socket(socket.AF_INET, socket.SOCK_DGRAM)
        self.socket.bind((address, 5060))
        self.challenges = set()
        self.authorization = ""

    def headers(self, method, call, number, to):
        self.count += 1
        return ["Via: SIP/2.0/UDP %s:5060;branch=z9hG4bK%s%d%d" % (self.address, self.name, self.count, int(time.time())), "Max-Forwards: 70",
                "From: <sip:%s@isle>;tag=%s" % (self.name, self.name), "To: <sip:%s@isle>" % to, "Call-ID: %s" % call, "CSeq: %d %s" % (number, method)]

    def send(self, first, headers, to=ICSCF):
        self.socket.sendto(("\r\n".join([first] + headers + ["Content-Length: 0", "", ""])).encode(), to)

    def receive(self, patience=8):
        self.socket.settimeout(patience)
        try:
            text = self.socket.recv(65536).decode()
        except socket.timeout:
            raise Wrong("%s hears nothing" % self.name)
        head = text.split("\r\n\r\n")[0].split("\r\n")
        return head[0], head[1:]

    def final(self, patience=8):
        """The next final answer."""
        while True:
            first, headers = self.receive(patience)
            if first.startswith("SIP/2.0") and not first.startswith("SIP/2.0 1"):
                return int(first.split()[1]), headers

    def register(self, expires, visited="isle", to=None):
        """One REGISTER: its status and headers."""
        call, number = "reg-%s-%d" % (self.name, int(time.time() * 1000)), 1 + self.count
        headers = self.headers("REGISTER", call, number, to or self.name)
        headers += ["Contact: <sip:%s@%s:5060>;expires=%d" % (self.name, self.address, expires), "Expires: %d" % expires, "P-Visited-Network-ID: %s" % visited,
                    "Supported: path", "Authorization: " + (self.authorization or 'Digest username="%s@isle",realm="isle",nonce="",uri="sip:isle",response="",'
                                                            'algorithm=AKAv1-MD5' % self.name)]
        self.send("REGISTER sip:isle SIP/2.0", headers)
        return self.final()

    def answer_challenge(self, headers, wrong=False):
        text = next(h for h in headers if h.lower().startswith("www-authenticate"))
        field = dict(re.findall(r'(\w+)="?([^",]*)"?', text.split("Digest", 1)[1]))
        challenge = base64.b64decode(field["nonce"] + "==")
        want(field["algorithm"] == "AKAv1-MD5" and len(challenge) == 32, "a challenge of another kind: " + text)
        want(challenge not in self.challenges, "a vector was sent twice")
        self.challenges.add(challenge)
        secret = b"wrong" if wrong else card(challenge, self.name + "@isle")
        first, second = md5(self.name + "@isle", "isle", secret), md5("REGISTER", "sip:isle")
        extra, middle = "", (field["nonce"],)
        if "auth" in field.get("qop", ""):
            middle += ("00000001", "cnonce", "auth")
            extra = ',qop=auth,nc=00000001,cnonce="cnonce"'
        self.authorization = 'Digest username="%s@isle",realm="isle",nonce="%s",uri="sip:isle",response="%s",algorithm=AKAv1-MD5%s' % (
            self.name, field["nonce"], md5(first, *middle, second), extra)


def step(what):
    global steps
    steps += 1
    print("phone.py: " + what, flush=True)


def come_in(phone, expires=600):
    """A challenge and its answer, and 200 OK."""
    phone.authorization = ""
    before = used(phone.name + "@isle")
    status, headers = phone.register(expires)
    want(status == 401, "%s is not challenged: %d" % (phone.name, status))
    want(used(phone.name + "@isle") == before + 1, "a challenge uses another number of vectors than 1")
    phone.answer_challenge(headers)
    status, headers = phone.register(expires)
    want(status == 200, "%s gave the right answer and gets %d" % (phone.name, status))


def call(caller, called):
    """INVITE, 200, ACK, BYE, 200."""
    identity = "call-%s-%d" % (caller.name, int(time.time() * 1000))
    headers = caller.headers("INVITE", identity, 1, called.name) + ["Contact: <sip:%s@%s:5060>" % (caller.name, caller.address)]
    caller.send("INVITE sip:%s@isle SIP/2.0" % called.name, headers)
    first, invite = called.receive()
    want(first.startswith("INVITE sip:%s@%s" % (called.name, called.address)), "%s hears %s" % (called.name, first))
    back = [h for h in invite if re.match(r"(Via|From|Call-ID|CSeq|Record-Route):", h, re.I)] + [h + ";tag=" + called.name for h in invite if re.match("To:", h, re.I)]
    called.send("SIP/2.0 200 OK", back + ["Contact: <sip:%s@%s:5060>" % (called.name, called.address)], tuple_of(invite))
    status, answer = caller.final()
    want(status == 200, "the call is answered with %d" % status)
    to = (called.address, 5060)
    caller.send("ACK sip:%s@%s:5060 SIP/2.0" % (called.name, called.address), caller.headers("ACK", identity, 1, called.name), to)
    want(called.receive()[0].startswith("ACK"), "no ACK")
    caller.send("BYE sip:%s@%s:5060 SIP/2.0" % (called.name, called.address), caller.headers("BYE", identity, 2, called.name), to)
    want(called.receive()[0].startswith("BYE"), "no BYE")


def tuple_of(headers):
    """Where an answer goes: the top Via's address."""
    via = next(h for h in headers if h.lower().startswith("via"))
    host, port = re.search(r"UDP ([0-9.]+):(\d+)", via).groups()
    return host, int(port)


def call_nobody(caller, name):
    """The final status of a call to somebody who is not there."""
    headers = caller.headers("INVITE", "nobody-%d" % int(time.time() * 1000), 1, name) + ["Contact: <sip:%s@%s:5060>" % (caller.name, caller.address)]
    caller.send("INVITE sip:%s@isle SIP/2.0" % name, headers)
    status, answer = caller.final()
    caller.send("ACK sip:%s@isle SIP/2.0" % name, [h for h in headers[:1]] + ["From: <sip:%s@isle>;tag=%s" % (caller.name, caller.name)] +
                [h for h in answer if re.match(r"(To|Call-ID):", h, re.I)] + ["CSeq: 1 ACK", "Max-Forwards: 70"])
    return status


def main():
    alice, bob = Phone("alice", "192.0.2.10"), Phone("bob", "192.0.2.11")
    server = "sip:scscf1.isle:6060"
    come_in(alice)
    want(line_of("sip:alice@isle") == (1, 0, server), "alice is %s on disk" % (line_of("sip:alice@isle"),))
    step("alice registers: UAR, MAR, 401, UAR, SAR type 1, 200; state 1 on disk")
    come_in(bob)
    step("bob registers, with an XRES of another length")
    call(bob, alice)
    step("bob calls alice: LIR, S-CSCF, 200, ACK, BYE")
    call(alice, bob)
    step("alice calls bob")
    come_in(alice)
    want(line_of("sip:alice@isle") == (1, 0, server), "alice is %s on disk" % (line_of("sip:alice@isle"),))
    step("alice registers anew: a new challenge, SAR type 2, 200")
    bob.authorization = ""
    status, headers = bob.register(600)
    want(status == 401, "no challenge: %d" % status)
    bob.answer_challenge(headers, wrong=True)
    status, headers = bob.register(600)
    want(status in (401, 403), "a wrong answer gets %d" % status)
    want(line_of("sip:bob@isle")[0] == 1, "a wrong answer removes bob")
    step("bob gives a wrong answer: %d, and he stays registered" % status)
    want(call_nobody(bob, "nobody") >= 400, "a call to nobody is answered")
    step("a call to an unknown identity: X5001, no answer but an error")
    status = call_nobody(bob, "erin")
    want(status >= 400 and line_of("sip:erin@isle")[0] == 2, "erin is called: %d, %s" % (status, line_of("sip:erin@isle")))
    step("erin is called unregistered: LIR, SAR type 3, state 2 on disk, %d to the caller" % status)
    carol = Phone("carol", "192.0.2.12")
    status, headers = carol.register(600)
    want(status == 403, "carol, who is barred, gets %d" % status)
    step("carol is barred: UAR B5003, 403")
    status, headers = Phone("dave", "192.0.2.13").register(600)
    want(status == 403, "dave, who has no vectors, gets %d" % status)
    step("dave has no vectors left: MAR B5012, 403")
    come_in(alice, expires=0)
    want(line_of("sip:alice@isle") == (0, 0, ""), "alice left and is %s on disk" % (line_of("sip:alice@isle"),))
    step("alice leaves: a challenge, SAR type 5, state 0 on disk")
    want(call_nobody(bob, "alice") >= 400, "a call to alice, who left, is answered")
    step("a call to alice, who left, is not answered")
    come_in(bob, expires=0)
    want(line_of("sip:bob@isle") == (0, 0, ""), "bob left and is %s on disk" % (line_of("sip:bob@isle"),))
    step("bob leaves")
    print("phone.py: %d steps" % steps)


try:
    main()
except Wrong as wrong:
    print("phone.py: %s" % wrong, file=sys.stderr)
    sys.exit(1)
