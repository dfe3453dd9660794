"""Trials of what requests get, and what they get when they come again."""
import os
import re
import struct

from trials.want import want
from trials.messages import CX, SERVER, SH, UDR, all_of, application, avp, avps_of, cer, cx, document, lir, mar, public, rands, \
    request, result, sar, supported, uar, udr
from trials.room import Client, USERS, cards, households


def editions(room):
    """Each peer has the edition that was stated of its Origin-Host, or of all; a second Vendor-Id tells which it is, and nothing else does."""
    gateway, others = b"gw.mainland.example", [b"scscf1.isle", b"gw.mainland.exampl", b"gw.mainland.example.isle", b"w.mainland.example"]
    for options, of_gateway, of_others in (
            ("", 3588, 3588), ("-e 3588", 3588, 3588), ("-e 6733", 6733, 6733), ("-e 6733=gw.mainland.example", 6733, 3588),
            ("-e 6733=GW.Mainland.example", 6733, 3588), ("-e 3588=gw.mainland.example -e 6733", 3588, 6733),
            ("-e 6733 -e 3588", 3588, 3588), ("-e 3588=gw.mainland.example -e 6733=gw.mainland.example", 6733, 3588),
            ("-e 6733=gw2.mainland.example -e 6733=gw.mainland.example -e 6733=gw3.mainland.example", 6733, 3588)):
        room.start(options=options.split())
        clients = [(gateway, of_gateway)] + [(host, of_others) for host in others]
        clients = [(Client(room, host=host), host.decode(), edition) for host, edition in clients]  # all are open at once
        for client, host, edition in clients:
            for ask, alone in (lir, "X2003"), (uar, "X2001"), (lambda user, **more: sar(user, 0, **more), "B5012"):
                want(result(client.ask(ask(1))) == alone, "with one Vendor-Id, %s of %s" % (alone, host))
                answer = client.ask(ask(1, vendors=2))
                want(result(answer) == ("B5009" if edition == 6733 else alone), "a second Vendor-Id by RFC %d of %s" % (edition, host))
                want(edition == 3588 or all_of(answer, 279) == [application(2)], "Failed-AVP has not the whole 260")
            want((edition == 6733) == ("peer %s: B5009 at byte " % host in room.log()), "the log, by RFC %d of %s" % (edition, host))
            room.logged("peer %s: open, RFC %d\\b" % (re.escape(host), edition))
        # One request that comes by several peers, those by RFC 6733 first, and then those by RFC 3588. Nobody is turned away by another's edition: B5009
        # is not remembered. What was done by RFC 3588 is: it is not done again, and everybody is sent that answer.
        for order in -1, 1:
            want(result(client.ask(sar(2, 1))) == "B2001", "no registration")
            asked, done = sar(2, 5, vendors=2), None
            for client, host, edition in sorted(clients, key=lambda one: order * one[2]):
                answer = client.ask(asked)
                want(answer == done if done else result(answer) == ("B5009" if edition == 6733 else "B2001"),
                     "a request that comes again, by RFC %d of %s" % (edition, host))
                done = answer if edition == 3588 else done
            want(room.lines()[b"sip:user2@isle"][0] == (0 if done else 1), "a removal with two Vendor-Ids, on disk")
        # The name that a peer gives last is its own.
        client = clients[1][0]
        client.ask(cer(host=gateway))
        want(result(client.ask(lir(1, vendors=2))) == ("B5009" if of_gateway == 6733 else "X2003"), "a second CER")
        room.end()


def features(room):
    """What is supported is told to whoever asks, to all peers alike. More than that, with M, is X5011, whatever was wanted, and the log says what it was."""
    everything = 0xFFFFFFFF
    for options, bits in (
            ("", 0), ("-f 0", 0), ("-f 5", 5), ("-f 0x5", 5), ("-f 26", 26), ("-f 0X1a", 26), ("-f 5 -f 0x00000001A", 26), ("-f 0xFFFFFFFF", everything),
            ("-f 4294967295", everything), ("-f 2147483648 -e 6733=gw.mainland.example", 1 << 31)):
        room.start(options=options.split())
        room.logged(r"listening on 127\.0\.0\.1 port \d+, %d records, features 0x%x\n" % (USERS, bits))
        own = supported(bits, marked=False)
        outside = next((1 << n for n in range(32) if not bits >> n & 1), None)
        for host in b"scscf1.isle", b"gw.mainland.example":
            client = Client(room, host=host)
            for ask, alone in (lir, "X2003"), (uar, "X2001"), (lambda user, **more: sar(user, 0, **more), "B5012"):
                plain = client.ask(ask(1))
                want(result(plain) == alone and all_of(plain, 628) == [], "nobody asked, and %s is %s" % (alone, result(plain)))
                for asking in supported(bits), supported(0), supported(everything, 2, 13019, marked=False), supported(bits) + supported(0):
                    answer = client.ask(ask(1, route=asking))
                    want(result(answer) == alone, "with '%s' %s instead of %s" % (options, result(answer), alone))
                    want(answer.count(own) == 1 and avps_of(answer[20:])[6] == (628, own[12:]), "with '%s' it is not told what is supported" % options)
            # What asks for too much stands among others, which do not.
            name, fine = host.decode(), supported(everything, marked=False) + supported(bits)
            for bit, listed, vendor in [(outside, 1, 10415)] * (outside is not None) + [(0, 2, 10415), (bits, 1, 13019)]:
                much = dict(route=fine + supported(bit, listed, vendor) + fine)
                for asked in lir(1, **much), lir(77, **much), sar(1, 1, **much), mar(1, **much):
                    answer = client.ask(asked)
                    want(result(answer) == "X5011" and answer.endswith(own) and len(all_of(answer, 628)) == 1,
                         "with '%s' %s for too much" % (options, result(answer)))
                asked = sar(2, 1, **much)
                want(client.ask(asked) == client.ask(asked), "a request that comes again gets another answer")
                room.logged(r"peer %s: X5011: it asks for features 0x%x of list %d of vendor %d, and 0x%x of list 1 are supported\n" % (
                    re.escape(name), bit, listed, vendor, bits))
            room.logged(r"peer %s: no challenge for user1@isle: X5011\n" % re.escape(name))
        want(room.lines()[b"sip:user1@isle"] == (0, 0, b"") and not room.used(), "X5011 alters something")
        client.ask(sar(1, 1, route=supported(bits)))
        want(room.lines()[b"sip:user1@isle"] == (1, 0, SERVER), "what is supported keeps from being registered")
        want(len(rands(client.ask(mar(1, route=supported(bits))))) == 1, "what is supported keeps from being challenged")
        client.ask(sar(1, 5))
        room.end()
        room.make("vectors", cards(), room.at("cards", "vectors"))


def voicemail(room):
    """A voicemail box asks over Sh what call servers left over Cx, and is told it from the moment when it is on disk; nothing that it asks alters anything."""
    room.start(options=["-e", "6733=gw.mainland.example"])

    def greeted(of, host=b"vm.isle"):
        client = Client(room, greet=False)
        have = client.ask(cer(application=of, host=host))
        want(result(have) == "B2001" and all_of(have, 260) == [application(of=one)[8:] for one in (CX, SH)], "a peer of application %d is not welcome" % of)
        return client

    box, relay, gateway, server = greeted(SH), greeted(0xFFFFFFFF), greeted(SH, b"gw.mainland.example"), greeted(CX)

    def told(user, state, name, by=box):
        both = document(state, name)
        for references, expected in ((11, 12), both), ((12, 11, 12), both), ([11], document(state)), ([12], document(name=name)):
            answer = by.ask(udr(user, references))
            want(result(answer) == "B2001" and answer[8:12] == struct.pack(">I", SH), "%s for what is known" % result(answer))
            want(all_of(answer, 702) == [expected], "%s is told of references %s" % (all_of(answer, 702), references))

    files = [room.at("live", "table"), room.at("live", "profile"), room.at("cards", "vectors")]
    kept = lambda: [(os.stat(file).st_ino, os.stat(file).st_mtime_ns, open(file, "rb").read()) for file in files]
    for asked, got, state, name in ((lir(1), "X2003", 0, b""), (mar(1), "B2001", 3, SERVER), (sar(1, 1), "B2001", 1, SERVER), (mar(1), "B2001", 1, SERVER),
                                    (sar(1, 6), "B2001", 2, SERVER), (sar(1, 5), "B2001", 0, b"")):
        want(result(server.ask(asked)) == got, "a call server does not get %s" % got)
        before = kept()
        for by in box, relay, gateway, server:
            told(1, state, name, by)
        want(kept() == before, "a file is another after it was asked")
    before = kept()
    for asked, got in ((udr(77), "X5001"), (udr(77, [10]), "X5001"), (udr(1, [10]), "X5100"), (udr(1, [11, 12, 17]), "X5100"), (udr(1, []), "B5005"),
                       (udr(1, route=supported(0xFFFFFFFF, 2, 13019)), "B2001"), (udr(1, route=public(1)), "B5001"),
                       (udr(1, of=CX), "B3001"), (udr(1, of=4), "B3001"), (lir(1, of=SH), "B3001"), (sar(1, 1, of=SH), "B3001"), (mar(1, of=SH), "B3001"),
                       (request(999, b"", of=SH), "B3001")):
        answer = box.ask(asked)
        want(result(answer) == got, "%s instead of %s" % (result(answer), got))
        want(all_of(answer, 628) == [] and (all_of(answer, 702) != []) == (got == "B2001"), "what %s carries" % got)
        # The group is that of the library that answered: Sh's for application 16777217, and Cx's for all others.
        want(all_of(answer, 260) == [application(of=SH if asked[8:12] == struct.pack(">I", SH) else CX)[8:]], "%s by the other library" % got)
    want(kept() == before, "an error alters a file")
    want("no challenge" not in room.log(), "the log has a MAR of Sh as one of Cx")
    for client, edition in (gateway, 6733), (box, 3588):
        want(result(client.ask(udr(1, vendors=2))) == ("B5009" if edition == 6733 else "B2001"), "a second Vendor-Id by RFC %d" % edition)
    room.logged(r"peer gw\.mainland\.example: B5009 at byte \d+: AVP 260 ")
    want(result(box.ask(request(UDR, cx(700, public(1) + public(1)) + cx(703, 11), of=SH))) == "B5004", "two identities")
    room.logged(r"peer vm\.isle: B5004 at byte \d+: AVP 700 vendor 10415 ")
    # Both interfaces in one write, and a disk without room, which keeps no UDR from being answered: of what is not stored nobody hears.
    many = [lir(2), udr(2), uar(2), udr(3), udr(77), lir(2)]
    relay.send(b"".join(many))
    want([result(relay.answer()) for _ in many] == ["X2003", "B2001", "X2001", "B2001", "X5001", "X2003"], "both interfaces in one write")
    open(room.at("disk-full"), "w").close()
    server.send(sar(2, 1))
    want(server.answer(0.3) is None, "what is not stored is answered")
    told(2, 0, b"")
    os.unlink(room.at("disk-full"))
    want(result(server.ask(sar(2, 1))) == "B2001", "no registration")
    told(2, 1, SERVER)
    room.kill()
    room.start()
    told(2, 1, SERVER, greeted(SH))
    room.end()


def timed_out(room):
    """A success that is an X result alters the table too, and so does its repeat not."""
    room.pair("first", households(keep=0))
    room.start()
    client = Client(room)
    want(result(client.ask(sar(1, 1))) == "B2001", "no registration")
    asked = sar(1, 6)
    first = client.ask(asked)
    want(result(first) == "X2004" and room.lines()[b"sip:user1@isle"] == (0, 0, b""), "a registration that timed out is on disk")
    want(client.ask(asked) == first, "a request that comes again gets another answer")
    room.kill()
    room.start()
    want(result(Client(room).ask(lir(1))) == "X2003", "a registration that timed out is back")
    room.end()


def twice(room):
    """A request that comes again gets the answer that it got; one that only looks like it does not."""
    room.start()
    one, other = Client(room), Client(room)

    def again(data, hop):
        return data[:4] + bytes([data[4] | 0x10]) + data[5:12] + struct.pack(">I", hop) + data[16:]

    for asked in uar(1), mar(1, 2), sar(1, 1), lir(1), sar(1, 5):
        first = one.ask(asked)
        want(result(first)[1] == "2", "no success")
        used = len(room.used())
        second = other.ask(again(asked, 4711))
        want(second == first[:12] + struct.pack(">I", 4711) + first[16:], "a request that comes again gets another answer")
        want(len(room.used()) == used, "a request that comes again uses vectors up")
    # By another relay: its Route-Record, and its Proxy-Info, which it wants back.
    proxies = [avp(284, avp(280, b"relay%d" % n) + avp(33, b"s" * n)) for n in (1, 2, 3)]
    asked = mar(2, route=avp(282, b"relay1.isle") + proxies[0], end=500)
    first = one.ask(asked)
    want(avps_of(first[20:])[-1] == avps_of(proxies[0])[0], "no Proxy-Info")
    dirty = proxies[2][:-1] + b"\7" if len(avps_of(proxies[2])[0][1]) % 4 else proxies[2]
    second = other.ask(again(mar(2, route=proxies[1] + avp(282, b"relay2.isle") + dirty, end=500), 4712))
    want(second == struct.pack(">I", 1 << 24 | len(second)) + first[4:12] + struct.pack(">I", 4712) + first[16:-len(proxies[0])] + proxies[1] + proxies[2],
         "by another relay the answer is another one")
    third = other.ask(again(mar(2, end=500), 4713))
    want(third[20:] == first[20:-len(proxies[0])], "without a relay the answer is another one")
    # The same identifiers on another request.
    want(rands(one.ask(mar(3, end=500))) != rands(first), "another request gets this one's answer")
    one.ask(lir(9, end=501, host=b"icscf.isle"))
    want(result(one.ask(sar(9, 1, end=501, host=b"icscf.isle"))) == "B2001", "another request gets this one's answer")
    room.end()


def crowded(room):
    """A daemon with room for few answers: those that altered something are not pushed out by others. A build of its own."""
    room.start()
    client = Client(room)
    want(result(client.ask(sar(1, 1))) == "B2001" and result(client.ask(sar(2, 5))) == "X5007", "other results")
    removal, failure = sar(1, 5), sar(1, 5)
    first = client.ask(removal)
    want(result(first) == "B2001" and result(client.ask(failure)) == "X5007", "no removal")
    for asked in [lir(3) for _ in range(200)] + [uar(3) for _ in range(200)] + [sar(3, 0) for _ in range(200)]:
        client.ask(asked)
    want(client.ask(removal) == first, "an answer was pushed out by others that altered nothing")
    want(result(client.ask(sar(1, 1))) == "B2001", "no registration")
    want(client.ask(removal) == first, "an answer was pushed out")
    client.ask(failure)
    want("forgotten" not in room.log(), "it says that answers were forgotten")
    for user in range(4, 24):
        client.ask(sar(user, 1))
    room.logged("answers are forgotten before their 300 seconds")
    room.end()
