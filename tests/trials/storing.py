"""Trials of what is stored before it is answered: on a full disk, over damaged memory, and whenever the daemon is killed."""
import os
import random
import time

from trials.want import PATIENCE, want
from trials.messages import SERVER, lir, mar, rands, result, sar
from trials.room import Client, USERS, VECTORS


def full(room):
    """A disk without room: what cannot be stored is undone and not answered, and all else is; and a disk that may have lost what it said it had."""
    room.start()
    client, other = Client(room), Client(room)
    want(result(client.ask(sar(1, 1))) == "B2001", "no room from the start")
    before = room.lines(), room.used()
    open(room.at("disk-full"), "w").close()
    for asked in sar(2, 1), mar(2), sar(1, 5), mar(1):
        client.send(asked)
        want(client.answer(0.3) is None, "what is not stored is answered")
        want(result(other.ask(lir(1))) == "B2001" and result(other.ask(lir(2))) != "B2001", "what is not stored is told to others")
        want(result(client.ask(sar(1, 2))) == "B2001", "what alters nothing is not answered")
    room.logged("NOT STORED")
    want((room.lines(), room.used()) == before, "what is not stored is on disk")
    os.unlink(room.at("disk-full"))
    want(result(client.ask(sar(2, 1))) == "B2001" and len(rands(client.ask(mar(2)))) == 1, "once there is room it is not answered")
    want(len(room.used()) == len(before[1]) + 1, "a vector was wasted")
    open(room.at("folder-fails"), "w").close()
    client.send(sar(3, 1))
    want(client.answer(5) is None, "what may be lost again is answered")
    want(room.process.wait(PATIENCE) == 1, "it goes on over a file that may be lost again")
    os.unlink(room.at("folder-fails"))
    room.start()
    want(result(Client(room).ask(lir(2))) == "B2001", "a registration is gone")
    room.end()


def spoilt(room):
    """A daemon whose table and then vectors are damaged in memory, which it reads again: a build of its own."""
    room.start()
    client = Client(room)
    want(result(client.ask(sar(1, 1))) == "B2001", "over a table that is damaged in memory it does not answer")
    want(len(rands(client.ask(mar(1)))) == 1, "over vectors that are damaged in memory it does not answer")
    room.logged("refused 5: the files are read again")
    room.logged("refused 6: the files are read again")
    want(room.lines()[b"sip:user1@isle"] == (1, 0, SERVER) and len(room.used()) == 1, "what is on disk is another")
    room.end()


class Line:
    """A line's cycle: challenge, register, challenge, remove. What the table should have after each."""
    after = [(0, 1, SERVER), (1, 0, SERVER), (1, 0, SERVER), (0, 0, b"")]

    def __init__(self, user):
        self.user, self.step, self.flying, self.done = user, 0, None, False

    def next(self):
        self.flying = (mar(self.user), sar(self.user, 1), mar(self.user), sar(self.user, 5))[self.step % 4]
        return self.flying

    def before(self):
        return self.after[(self.step + 3) % 4]

    def behind(self):
        return self.after[self.step % 4]


def kills(room, users=USERS, vectors=VECTORS, at_once=12):
    """1,000 SARs and MARs, and a kill at any moment; the files are read again, and the daemon goes on with them."""
    draw = random.Random(int.from_bytes(os.urandom(4), "big"))
    lines = [Line(user) for user in range(users)]
    sent, tally = set(), {"answers": 0, "stored": 0, "unstored": 0, "wasted": 0}

    def took(line, answer, done_before):
        """An answer to the request that flies; DONE_BEFORE if its work was on disk already when it was asked again."""
        is_mar = line.step % 2 == 0
        expected = "X5007" if done_before and line.step % 4 == 3 else "B2001"
        want(result(answer) == expected, "%s instead of %s" % (result(answer), expected))
        got = rands(answer)
        want(len(got) == (1 if is_mar else 0), "%d vectors" % len(got))
        for one in got:
            want(one not in sent, "a vector was sent twice")
            sent.add(one)
        line.step += 1
        line.flying, line.done = None, False
        tally["answers"] += 1

    def life(last):
        room.start()
        clients = [Client(room), Client(room)]
        on_disk = room.lines()
        flying = {}

        def launch(line):
            asked = line.flying or line.next()
            flying[asked[16:20]] = line, line.done
            clients[line.user % 2].send(asked)

        for line in lines:
            line.done = line.flying is not None and line.before() != line.behind() and on_disk[b"sip:user%d@isle" % line.user] == line.behind()
        goal = draw.randrange(1, 1 + 2 * 1000 // room.kills)
        moment = draw.choice([0, draw.random() * 0.004])
        for line in draw.sample([one for one in lines if one.flying] + [one for one in lines if not one.flying], at_once):
            launch(line)
        for line in lines:
            if line.flying and line.flying[16:20] not in flying:
                launch(line)
        count = 0
        while flying and (last or count < goal) and tally["answers"] < 1000:
            client = clients[count % 2]
            if not any(line.user % 2 == count % 2 for line, _ in flying.values()):
                client = clients[1 - count % 2]
            answer = client.answer()
            want(answer is not None, "no answer")
            line, known = flying.pop(answer[16:20])
            took(line, answer, known)
            count += 1
            resting = [one for one in lines if one.flying is None and one.step < 4 * vectors // 2 - 4]
            if resting:
                launch(draw.choice(resting))
        time.sleep(moment)
        room.kill()
        for client in clients:  # what is on its way was answered too
            while True:
                answer = client.answer(PATIENCE)
                if answer is None:
                    break
                line, known = flying.pop(answer[16:20])
                took(line, answer, known)
            client.close()

    def reread():
        table, used = room.lines(), room.used()
        for line in lines:
            now = table[b"sip:user%d@isle" % line.user]
            allowed = {line.before()} if line.step else {(0, 0, b"")}
            if line.flying:
                allowed.add(line.behind())
                if line.behind() != line.before():
                    tally["stored" if now == line.behind() else "unstored"] += 1
            want(now in allowed, "user%d is %s on disk, and was answered %s" % (line.user, now, allowed))
        want(sent <= used, "a vector was sent that is unused on disk")
        tally["wasted"] = len(used - sent)

    rounds = 0
    while tally["answers"] < 1000:
        rounds += 1
        life(last=rounds >= 2 * room.kills)
        reread()
    print("client.py: %d SARs and MARs answered over %d kills; %d requests had been stored and not answered, %d not stored; %d vectors sent, none twice, %d wasted" %
          (tally["answers"], rounds, tally["stored"], tally["unstored"], len(sent), tally["wasted"]))
