"""Trials of tables that are taken over, block by block."""
import os
import random
import re
import subprocess
import time

from trials.want import PATIENCE, want
from trials.messages import SAR, all_of, cx, lir, private, public, request, result, sar, udr
from trials.room import Client


def isle(issue, users=120):
    """A table whose issue stands in its host's name, and in the server of every line."""
    text = ["host=hss%d.isle realm=isle keep=1 issue=%d\nnetwork=isle\n" % (issue, issue)]
    for user in range(users):
        text.append('public=sip:user%d@isle private=user%d@isle\nstate=registered server=sip:s%d.isle:6060\nprofile="<P>user%d</P>"\n' % (user, user, issue, user))
    return "\n".join(text)


def issue_of(answer):
    """The issue that an answer was given from: of its host, which is in the header, and of its server, which is in a record; over Sh it is in the document."""
    host, server = all_of(answer, 264), all_of(answer, 602) or re.findall(b"<SCSCFName>(.*)</SCSCFName>", b"".join(all_of(answer, 702)))
    found = re.fullmatch(rb"hss(\d+)\.isle", host[0])
    want(found and server == [b"sip:s%s.isle:6060" % found.group(1)], "an answer of half a table: %s, %s" % (host, server))
    return int(found.group(1))


class Taking:
    """A room whose table is of edition 2, and new ones that are put beside it."""

    def __init__(self, room, users=120, more=0):
        self.room, self.users = room, users
        room.pair("first", isle(1, users))
        room.make("profile", isle(1, users + 10), room.at("live", "profile"))  # long enough for more lines
        with open(room.at("live", "table"), "ab") as file:
            file.write(os.urandom(more).replace(b"\1", b"\0").replace(b"\2", b"\0"))

    def next(self, issue, users=None, data=None):
        """Puts one there, and gives its blocks."""
        self.room.make("table", isle(issue, users or self.users), self.room.at("made"))
        with open(self.room.at("made"), "rb") as file:
            data = file.read() if data is None else data
        with open(self.room.at("live", "table.part"), "wb") as file:
            file.write(data)
        os.rename(self.room.at("live", "table.part"), self.room.at("live", "table.next"))
        return [data[at:at + 512] for at in range(0, len(data), 512)]

    def is_there(self):
        return os.path.exists(self.room.at("live", "table.next"))

    def zero(self):
        """From block 0 up, as the manual page has it."""
        subprocess.run(["dd", "if=/dev/zero", "of=" + self.room.at("live", "table"), "bs=512", "count=%d" % len(self.room.blocks("live", "table")),
                        "conv=notrunc", "oflag=dsync", "status=none"], check=True)


def taken(room):
    """A new table beside the live one is taken over block by block, while clients ask; refused ones are not, and why is said; a disk may fail."""
    place = Taking(room, more=1000)
    rest = room.blocks("live", "table")[121:]
    room.start()
    client, other = Client(room), Client(room)
    want(issue_of(client.ask(lir(7))) == 1, "the first table is another")

    def asks_until(issue, last=60.0):
        """From the old table, and from some question on from the new one."""
        got, until = [], time.time() + min(last, PATIENCE)
        while (not got or got[-1] != issue) and time.time() < until:
            got.append(issue_of(client.ask((lir, udr)[len(got) % 2](10 + len(got) % 30))))
        want(got[-1] == issue and got == sorted(got), "the tables that answers come from: %s" % sorted(set(got)))
        return len(got)

    fresh = place.next(2)
    room.logged("table.next: a take-over begins, 121 blocks, issue 2")
    asked = sar(110, 5)  # the server has another name: it is over this table too
    other.send(asked)
    want(asks_until(2) > 2, "nobody is served while a table is taken over")
    room.logged("table.next is taken over, 120 records, issue 2")
    answer = other.answer()
    want(answer is not None and answer[16:20] == asked[16:20] and all_of(answer, 264) == [b"hss2.isle"], "what may alter does not wait for the new table")
    want(room.blocks("live", "table") == fresh + rest and not place.is_there(), "on disk is another table, or its name is still there")
    # What is altered now is altered in the new one, and what stands past it stays.
    want(result(client.ask(request(SAR, public(3) + private(3) + cx(602, b"sip:s2.isle:6060") + cx(614, 5) + cx(624, 0)))) == "B2001", "no removal")
    want(room.lines()[b"sip:user3@isle"][0] == 0 and room.blocks("live", "table")[121:] == rest, "what is stored is not in the new table")
    # Fewer records.
    fresh, before = place.next(3, users=50), room.blocks("live", "table")
    asks_until(3)
    room.logged("table.next is taken over, 50 records, issue 3")
    want(room.blocks("live", "table") == fresh + before[51:], "a shorter table has other bytes behind it")

    def declined(why, **next_one):
        place.next(**next_one)
        room.logged("table.next is NOT taken over, .*: " + why)
        want(issue_of(client.ask(lir(1))) == 3 and place.is_there(), "a table that is refused is taken over, or gone")
        want(len(re.findall("NOT taken over, .*: " + why, room.log())) == 1, "what lasts is said again and again")

    before = room.blocks("live", "table")
    declined("refused 10, issue 3 is not greater than 3, which block 0 of the area has", issue=3)
    declined("refused 11, the area has 62952 bytes, and the new table 64512", issue=4, users=125)
    declined("refused 9, block 0 of the new table is bad", issue=4, data=b"rubbish")
    declined("it has 3000000 bytes, and may have 2097664 at most", issue=4, data=b"r" * 3000000)
    want(room.blocks("live", "table") == before, "a table that is refused was written")
    # A disk that fails: the old one is stored again, and what alters is answered; then the disk works.
    open(room.at("block-fails"), "w").close()
    fresh = place.next(4)
    room.logged("table.next is NOT taken over: block 0: Input/output error")
    room.logged("table: ours is stored again")
    want(room.blocks("live", "table") == before and issue_of(client.ask(lir(1))) == 3, "the table from before is not on disk again")
    want(result(client.ask(request(SAR, public(2) + private(2) + cx(602, b"sip:s3.isle:6060") + cx(614, 5) + cx(624, 0)))) == "B2001", "no removal")
    os.unlink(room.at("block-fails"))
    room.logged("table.next is taken over, 120 records, issue 4")
    want(room.blocks("live", "table")[:121] == fresh, "on disk is another table")
    asks_until(4)
    # Told to end within a take-over, it ends that first.
    fresh = place.next(5)
    room.logged("table.next: a take-over begins, 121 blocks, issue 5")
    room.end()
    want(room.blocks("live", "table")[:121] == fresh, "it ends within a take-over")


def taken_over_kills(room):
    """Kills within take-overs: nothing is answered from half a table, the disk has the old one or the new one or one that is refused; the next start says
    what to do, and that mends it."""
    place = Taking(room)
    draw = random.Random(int.from_bytes(os.urandom(4), "big"))
    issue, tally = 1, {"old": 0, "cut": 0, "new": 0, "answers": 0}

    def life(fresh, old):
        """Until a kill; gives how many of the new blocks are on disk."""
        client = Client(room)
        goal, known = draw.choice([0.004, 0.15, 0.15, 0.4]) * draw.random(), 0
        begun = time.time()
        while time.time() - begun < goal:
            found = issue_of(client.ask(lir(draw.randrange(place.users))))
            want(found in (issue - 1, issue) and found >= known, "an answer of issue %d behind one of %d" % (found, known))
            known = found
            tally["answers"] += 1
        room.kill()
        found = room.blocks("live", "table")
        many = next((k for k in range(len(fresh)) if found[k] != fresh[k]), len(fresh))
        want(found[many:] == old[many:], "on disk is something else than the old table with the first blocks of the new one")
        want(known < issue or many == len(fresh), "an answer was given from a table that is not whole on disk")
        client.close()
        return many

    def told(block):
        room.start(ready=False)
        want(room.process.wait(PATIENCE) == 1, "it starts over half a table")
        room.logged("table: block %d is bad" % block)
        room.logged("send a table of an issue greater than %d, as table.next; or zero table, from block 0 up" % issue)

    for turn in range(room.kills // 2):
        room.start()
        old = room.blocks("live", "table")
        issue += 1
        fresh = place.next(issue)
        many = life(fresh, old)
        tally["old" if many == 0 else "new" if many == len(fresh) else "cut"] += 1
        if 0 < many < len(fresh):
            told(many)
            if turn % 2:
                place.zero()
            else:
                issue += 1
                fresh = place.next(issue)
        left = place.is_there()
        room.start()
        client = Client(room)
        want(many == len(fresh) or left, "a table that is not whole on disk has lost its name")
        if left:
            room.logged("table.next (is|was) taken over")
        want(issue_of(client.ask(lir(1))) == issue and room.blocks("live", "table") == fresh, "it is not mended")
        want(not place.is_there(), "the name of the new table is still there")
        room.end()
    want(tally["cut"] > 0, "no kill came within a take-over")
    print("client.py: %d kills: %d before the first block, %d within, %d behind the last; %d answers, none from half a table" %
          (sum(tally.values()) - tally["answers"], tally["old"], tally["cut"], tally["new"], tally["answers"]))
