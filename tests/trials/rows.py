"""Trials of rows of requests that are stored at once."""
import fcntl
import os
import signal
import socket
import struct
import termios
import time

from trials.want import PATIENCE, want
from trials.messages import DWR, SERVER, all_of, base, document, fresh_end, lir, mar, rands, request, result, sar, uar, udr
from trials.room import Client, USERS, cards, households
from trials.storing import kills


def unread(connection):
    """How many bytes have not come to the other side's system yet."""
    return struct.unpack("i", fcntl.ioctl(connection, termios.TIOCOUTQ, b"\0\0\0\0"))[0]


class Rows:
    """Requests that come while the daemon is stopped, and so are there at once when it goes on; how often it flushed since then."""

    def __init__(self, room):
        self.room, self.states = room, [0] * USERS
        open(room.at("flushes"), "w").close()

    def send(self, sent):
        self.room.process.send_signal(signal.SIGSTOP)
        want(os.WIFSTOPPED(os.waitpid(self.room.process.pid, os.WUNTRACED)[1]), "it ended")
        for client, asked in sent:
            client.send(b"".join(asked))
        until = time.time() + PATIENCE
        while any(unread(client.socket) for client, _ in sent) and time.time() < until:
            time.sleep(0.001)
        self.room.process.send_signal(signal.SIGCONT)

    def at_once(self, sent):
        """Sends each client its requests, and gives the answers of each, in their order, and how many flushes they took."""
        before = os.path.getsize(self.room.at("flushes"))
        self.send(sent)
        answers = [[client.answer() for _ in asked] for client, asked in sent]
        for (_, asked), got in zip(sent, answers):
            for one, answer in zip(asked, got):
                want(answer is not None, "no answer in a row of %d" % sum(len(asked) for _, asked in sent))
                want(answer[12:20] == one[12:20], "an answer of a row out of its order")
        return answers, os.path.getsize(self.room.at("flushes")) - before

    def assignment(self, user):
        """A SAR that alters the line: it registers, or is removed."""
        self.states[user] = 1 - self.states[user]
        return sar(user, 1 if self.states[user] else 5)

    def are_on_disk(self):
        found = self.room.lines()
        return all(found[b"sip:user%d@isle" % user][0] == state for user, state in enumerate(self.states))


def rows(room):
    """1 to 150 requests at once, by one peer and by many: a store for 64 of them."""
    room.start()
    clients, of_rows = [Client(room) for _ in range(USERS)], Rows(room)
    for many in 1, 2, 3, 17, 63, 64, 65, 128, 150:
        for by in 1, 2, USERS:
            sent = [(client, []) for client in clients[:min(by, many)]]
            for number in range(many):  # each peer has lines of its own: among peers there is no order
                turn, peer = divmod(number, len(sent))
                sent[peer][1].append(of_rows.assignment(peer + len(sent) * (turn % (USERS // len(sent)))))
            answers, flushes = of_rows.at_once(sent)
            want(all(result(one) == "B2001" for got in answers for one in got), "%d at once by %d: another result" % (many, by))
            want(flushes == 2 * -(-many // 64), "%d at once by %d: %d flushes" % (many, by, flushes))
            want(of_rows.are_on_disk(), "%d at once by %d: another table on disk" % (many, by))
    # What alters nothing is not stored; vectors and table are, once each.
    asked = [(lir, uar)[number % 2](number % USERS) for number in range(64)]
    want(of_rows.at_once([(clients[0], asked)])[1] == 0, "what alters nothing is stored")
    asked = [(mar(number % USERS), lir(3), sar(number % USERS, 0), request(999, b""))[number % 4] for number in range(64)]
    answers, flushes = of_rows.at_once([(clients[0], asked)])
    want(flushes in (2, 4) and sum(len(rands(one)) for one in answers[0]) == 16, "a row with vectors: %d flushes" % flushes)
    sent = {one for answer in answers[0] for one in rands(answer)}
    want(room.used() == sent and len(sent) == 16, "the vectors that were sent are not those that are used on disk")
    room.kill()
    room.start()
    want(room.used() == sent, "after a kill other vectors are used")
    room.end()


def row_order(room):
    """What is answered without a row keeps its place; what comes twice at once is decided once; what a peer sent before it closed is answered."""
    room.start(options=["-e", "6733=gw.mainland.example"])
    client, other, gateway, of_rows = Client(room), Client(room), Client(room, host=b"gw.mainland.example"), Rows(room)
    begun = time.time()
    asked = [(lir(1), base(DWR, hop=number, end=fresh_end()), sar(2, 1), udr(2), uar(3))[number % 5] for number in range(100)]
    answers = of_rows.at_once([(client, asked)])[0][0]
    want([result(one) for one in answers[:5]] == ["X2003", "B2001", "B2001", "B2001", "X2001"] and all_of(answers[3], 702) == [document(1, SERVER)],
         "another answer between those of rows")
    want(time.time() - begun < 15, "what waits for the next row waits for something else")
    # The same request at once, by one peer and by another: done once, and all are sent that answer.
    for asked in mar(4), sar(4, 1), sar(4, 5):
        again = asked[:4] + bytes([asked[4] | 0x10]) + asked[5:12] + b"\0\0\x12\x67" + asked[16:]
        used = len(room.used())
        (first, second), (third, last) = of_rows.at_once([(client, [asked, again]), (other, [again, lir(5)])])[0]
        want(result(first) == "B2001" and second == third == first[:12] + again[12:16] + first[16:], "what comes twice at once gets two answers")
        want(result(last) == "X2003" and len(room.used()) - used == len(rands(first)), "what comes twice at once uses vectors up twice")
    known = mar(5)
    first = client.ask(known)
    want(of_rows.at_once([(client, [lir(1), known, uar(3), known])])[0][0][1] == first, "what came before gets another answer between those of a row")
    # Peers by either base standard at once: each has its own, and what each of them alters is on disk.
    for users in (6, 7), (8, 9):
        asked = [(client, [sar(users[0], 1), lir(users[0], vendors=2)]), (gateway, [lir(1), lir(1, vendors=2)])]
        (mine, twofold), (theirs, refused) = of_rows.at_once(asked)[0]
        want([result(one) for one in (mine, twofold, theirs, refused)] == ["B2001", "B2001", "X2003", "B5009"], "two base standards at once")
        want(room.lines()[b"sip:user%d@isle" % users[0]][0] == 1, "what the first of two alters is not on disk")
        (mine,), (theirs,) = of_rows.at_once([(client, [lir(1)]), (gateway, [sar(users[1], 1)])])[0]
        want(result(theirs) == "B2001" and all(room.lines()[b"sip:user%d@isle" % user][0] == 1 for user in users), "what one of two alters is not on disk")
    # Whoever closes its side has what it asked for.
    asked = [of_rows.assignment(10 + number % 5) for number in range(150)]
    other.send(b"".join(asked))
    other.socket.shutdown(socket.SHUT_WR)
    want(all((other.answer() or b"")[12:20] == one[12:20] for one in asked) and other.is_gone(), "what a peer sent before it closed is not answered")
    room.end()


def row_full(room):
    """A row that cannot be stored is undone and not answered, not a request of it; then what alters nothing is answered, and the rest once there is room."""
    room.start()
    client, other, of_rows = Client(room), Client(room), Rows(room)
    want(result(client.ask(sar(1, 1))) == "B2001", "no room from the start")
    for many in 1, 2, 16, 64:
        before = room.lines(), room.used()
        open(room.at("disk-full"), "w").close()
        of_rows.send([(client, [(sar(2 + number % 30, 1), lir(1), mar(2 + number % 30), uar(1))[number % 4] for number in range(many)])])
        want(client.answer(0.5) is None, "of a row of %d that is not stored something is answered" % many)
        want((room.lines(), room.used()) == before, "a row of %d that is not stored is on disk" % many)
        asked = [(lir(1), uar(1), sar(2, 1), mar(2))[number % 4] for number in range(40)]
        of_rows.send([(other, asked)])
        for one in [one for number, one in enumerate(asked) if number % 4 < 2]:
            answer = other.answer()
            want(answer is not None and answer[12:20] == one[12:20] and result(answer) in ("B2001", "X2001", "X2002"), "what alters nothing is not answered")
        want(other.answer(0.3) is None, "what is not stored is answered")
        want(result(other.ask(lir(2))) != "B2001", "what is not stored is told to others")
        want((room.lines(), room.used()) == before, "what is not stored is on disk")
        os.unlink(room.at("disk-full"))
        want(result(client.ask(sar(1, 5))) == "B2001" and result(client.ask(sar(1, 1))) == "B2001", "once there is room it is not answered")
        answers, flushes = of_rows.at_once([(client, [(mar, lir)[number % 2](8 + number // 2) for number in range(64)])])
        want(flushes == 4 and len(room.used()) == len(before[1]) + 32, "once there is room: %d flushes, %d vectors" % (flushes, len(room.used())))
        answers, flushes = of_rows.at_once([(client, [sar(30 + number % 8, 5 if number >= 32 else 1) for number in range(64)])])
        want(flushes == 2, "once there is room: %d flushes" % flushes)
    room.logged("NOT STORED, and not answered")
    room.end()


def row_kills(room):
    """The same as kills with up to 64 SARs and MARs at once, of as many lines."""
    room.pair("first", households(64))
    room.make("vectors", cards(64, 40), room.at("cards", "vectors"))
    kills(room, 64, 40, 64)
