"""Trials of how messages come and peers go."""
import random
import signal
import socket
import struct
import time

from trials.want import PATIENCE, want
from trials.messages import CER, CX, DPR, DWR, LIR, MAR, SERVER, SH, all_of, application, avp, avps_of, base, cer, cx, lir, message, \
    private, public, request, result, sar, uar
from trials.room import Client, USERS


def greeting(room):
    room.start()
    client = Client(room)
    have = dict(avps_of(client.greeting[20:]))
    want(have[264] == b"hss.isle" and have[296] == b"isle" and have[257] == b"\0\1\x7f\0\0\1" and have[266] == struct.pack(">I", 10415),
         "a CEA with another origin")
    want(all_of(client.greeting, 260) == [application(of=of)[8:] for of in (CX, SH)] and 269 in have, "a CEA with other applications")
    want(client.greeting[4] == 0 and client.greeting[12:20] == cer()[12:20], "a CEA with another header")
    want(result(client.ask(base(DWR, hop=7, end=8))) == "B2001", "a DWR is not answered with success")
    want(result(client.ask(cer(hop=9))) == "B2001", "a second CER is not answered")
    want(result(client.ask(cer(application=0xFFFFFFFF))) == "B2001", "a relay is not taken")
    want(result(client.ask(base(DPR, avp(273, 0), hop=5))) == "B2001" and client.is_gone(), "a DPR is not answered, or not the last")
    client = Client(room, greet=False)
    want(result(client.ask(base(CER, avp(258, CX)))) == "B2001", "a CER with less in it, as some send it first, is not taken")
    client = Client(room, greet=False)
    want(result(client.ask(cer(application=4))) == "B5010" and client.is_gone(), "a peer without Cx and Sh stays")
    for first in lir(1), base(DWR), cer()[:4] + b"\0" + cer()[5:], message(CER, b"", application=0, flags=0x80), message(CER, avp(264, b"x")):
        client = Client(room, greet=False)
        client.send(first)
        want(client.is_gone(), "a peer that does not begin with a CER stays")
    client = Client(room, greet=False)
    want(client.is_gone(), "a peer that sends no CER stays")
    room.end()


def cut(room):
    """Frames cut at every byte, by fifty peers at once, and a byte at a time."""
    room.start()
    clients = [Client(room) for _ in range(50)]
    asked = [lir(1, end=1), base(DWR, end=2), uar(2, end=3), request(999, b"", end=4), lir(77, end=5)]
    expected = [clients[0].ask(one) for one in asked]
    want([result(one) for one in expected] == ["X2003", "B2001", "X2001", "B3001", "X5001"], "other results")
    stream = b"".join(asked)

    def again(places):
        """The stream from each of some peers, each cut at its own place; the first request of each is a new one to the daemon."""
        streams = [stream[:16] + struct.pack(">I", 1000 + at) + stream[20:] for at in places]
        for client, one, at in zip(clients, streams, places):
            client.send(one[:at])
        time.sleep(0.002)
        for client, one, at in zip(clients, streams, places):
            client.send(one[at:])
        for client, at in zip(clients, places):
            for number, answer in enumerate(expected):
                got = client.answer()
                want(got is not None, "cut at %d: no answer" % at)
                want(got[:16] == answer[:16] and got[20:] == answer[20:], "cut at %d: another answer" % at)
                want(number == 0 or got == answer, "cut at %d: another answer" % at)

    for first in range(1, len(stream), len(clients)):
        again(range(first, min(first + len(clients), len(stream))))
    for at in range(len(stream)):
        clients[0].send(stream[at:at + 1])
        time.sleep(0)
    for answer in expected:
        want(clients[0].answer() == answer, "a byte at a time: another answer")
    room.end()


def many(room):
    """Several in one write, and more than are read at once."""
    room.start()
    client = Client(room)
    asked = [(lir if number % 3 else uar)(number % USERS, end=10000 + number) for number in range(400)]
    client.send(b"".join(asked))
    for one in asked:
        answer = client.answer()
        want(answer is not None and answer[12:20] == one[12:20], "many in one write: an answer is missing")
    room.end()


def garbage(room):
    room.start()
    steady = Client(room)
    draw = random.Random(2)

    def serves():
        want(result(steady.ask(lir(1))) == "X2003", "another peer is not served as ever")

    for first in b"GET / HTTP/1.1\r\nHost: hss.isle\r\n\r\n", b"\x16\x03\x01\x02\x00\x01\x00\x01\xfc\x03\x03" + b"a" * 40, b"\0" * 100, b"\xff" * 100:
        client = Client(room, greet=False)
        client.send(first)
        want(client.is_gone(), "garbage before a CER: it is not hung up on")
        serves()
    for length, number in (0, 2), (4, 2), (16, 2), (21, 3), (22, 3), (62, 3):
        client = Client(room)
        client.send(struct.pack(">I", 1 << 24 | length) + lir(1)[4:] + b"\0" * 100)
        want(client.is_gone(), "a length of %d: it is not hung up on" % length)
        room.logged("refused %d, place 0" % number)
        serves()
    client = Client(room)
    client.send(b"\x47\xff\xff\xff" + lir(1)[4:])
    want(client.is_gone(), "a length without end, of another version: it is not hung up on")
    client = Client(room)
    long = request(LIR, public(1) + avp(999, b"x" * 20000, flags=0))
    for wrong in long, message(LIR, b"", flags=0x40), message(DWR, b"", application=0, flags=0):
        client.send(wrong + lir(3, end=77))
        answer = client.answer()
        want(answer is not None and answer[16:20] == b"\0\0\0\x4d", "a message that is dropped takes the next one along")
    room.logged("refused 2, length %d" % len(long))
    room.logged("refused 4, place 0")
    faulty = request(LIR, avp(601, b"sip:user1@isle", flags=0x40) + public(1))
    want(result(client.ask(faulty)) == "B5001", "an AVP at fault is not answered")
    room.logged(r"peer scscf1\.isle: B5001 at byte \d+: AVP 601 flags 0x40 length 22")
    want(result(client.ask(request(MAR, public(1) + private(1) + cx(607, 1) + cx(612, cx(608, b"MD5")) + cx(602, SERVER)))) == "X5006", "another scheme is taken")
    room.logged(r"peer scscf1\.isle: no challenge for user1@isle: X5006")
    for _ in range(60):
        client = Client(room)
        client.send(draw.randbytes(draw.randrange(1, 3000)))
        client.close()
        serves()
    room.end()


def slow(room):
    """Peers that send half a message, read nothing, or say nothing hold nobody up, and are hung up on in the end."""
    room.start()
    half = Client(room)
    half.send(lir(1)[:-1])
    head = Client(room, greet=False)
    head.send(cer()[:7])
    deaf = Client(room, greet=False)
    deaf.socket.setsockopt(socket.SOL_SOCKET, socket.SO_RCVBUF, 4096)
    deaf.send(cer())
    deaf.socket.setblocking(False)
    alive = Client(room)
    busy = Client(room)
    flood = b"".join(sar(1, 0) for _ in range(100))
    begun, sent, longest, hung_up = time.time(), 0, 0, 0
    while hung_up < 3 and time.time() - begun < PATIENCE:
        try:
            while True:
                sent += deaf.socket.send(flood[sent % len(flood):])
        except (BlockingIOError, ConnectionError):
            pass
        asked = time.time()
        want(result(busy.ask(lir(2))) == "X2003", "beside slow peers another one gets another answer")
        longest = max(longest, time.time() - asked)
        want(alive.answer(0.01) is None, "a peer that asks nothing is answered")
        hung_up = room.log().count("no whole message came")
    want(longest < 5, "slow peers hold another one up: %.2f s" % longest)
    want(hung_up == 3 and sent > 100000, "%d of 3 slow peers are hung up on" % hung_up)
    want(head.is_gone() and half.answer() is None and half.is_gone(), "a slow peer is hung up on in the log alone")
    want(alive.watchdogs >= 1, "the daemon sends no DWR")
    want(result(alive.ask(lir(2))) == "X2003", "a peer that answers DWRs is hung up on")
    room.end()


def ending(room):
    room.start()
    polite, deaf = Client(room), Client(room)
    waiting = Client(room, greet=False)
    client = Client(room)
    client.ask(sar(1, 1))
    client.close()
    room.process.send_signal(signal.SIGTERM)
    for peer in polite, deaf:
        told = peer.answer()
        want(told is not None and told[4:8] == b"\x80\0\1\x1a" and all_of(told, 273) == [b"\0\0\0\0"], "a peer is not told by a DPR")
    want(waiting.is_gone(), "a peer without a CEA is not hung up on")
    polite.send(base(DPR, avp(268, 2001), flags=0, hop=struct.unpack(">I", told[12:16])[0]))
    want(polite.is_gone(), "a DPA is not the last")
    room.logged("hung up: as agreed")
    want(room.process.wait(PATIENCE) == 0, "it does not end, or ends with another status")
    want("daemon: ended" in room.log(), "it does not say that it ended")
    want(room.lines()[b"sip:user1@isle"][0] == 1, "a registration is gone")
    room.start()
    want(result(Client(room).ask(lir(1))) == "B2001", "a registration is gone")
    room.end()
