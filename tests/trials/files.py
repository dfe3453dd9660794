"""Trials of the files that are served, and of what is put in their place."""
import fcntl
import os
import re
import shutil
import subprocess
import time

from trials.want import PATIENCE, want
from trials.messages import all_of, lir, mar, rands, result, sar
from trials.room import Client, USERS, households

NOBODY = 65534


def replaced(room):
    """A table that is put in the live one's place: by its link and by its name, sound and not."""
    room.start()
    client = Client(room)
    want(result(client.ask(lir(USERS))) == "X5001" and result(client.ask(sar(1, 1))) == "B2001", "the first table is another")
    room.pair("second", households(USERS + 1))
    room.link("second")
    want(result(client.ask(lir(USERS))) != "X5001", "a new table is not taken over")
    room.logged("a new table is taken over, %d records" % (USERS + 1))
    want(result(client.ask(sar(2, 1))) == "B2001" and room.lines()[b"sip:user2@isle"][0] == 1, "what is stored is not in the new table")
    want(room.lines()[b"sip:user1@isle"][0] == 0, "the new table was written over")
    third = room.pair("third", households(USERS + 2))
    with open(third + "/table", "r+b") as file:
        file.seek(512 * 7 + 20)
        file.write(b"?")
    room.link("third")
    want(result(client.ask(lir(USERS + 1))) == "X5001" and result(client.ask(lir(2))) == "B2001", "an unsound table is taken over")
    room.logged("a new table is NOT taken over, .*: table: block 7 is bad\n")
    want(result(client.ask(sar(3, 1))) == "B2001", "beside an unsound table nothing is stored")
    want(room.log().count("NOT taken over") == 1, "an unsound table is looked at again and again")
    room.link("second")
    want(room.lines()[b"sip:user3@isle"][0] == 1, "beside an unsound table nothing is stored")
    client.ask(lir(3))
    # By its name, in the folder that is stored in: what was answered must be there again at once.
    with open(room.at("live", "table.x"), "wb") as file:
        file.write(b"rubbish")
    os.rename(room.at("live", "table.x"), room.at("live", "table"))
    want(result(client.ask(lir(3))) == "B2001", "rubbish in the table's place is taken over")
    want(room.lines()[b"sip:user3@isle"][0] == 1 and room.lines()[b"sip:user2@isle"][0] == 1, "what was answered is not on disk any more")
    with open(room.at("live", "table.declined"), "rb") as file:
        want(file.read() == b"rubbish", "what was declined is not kept")
    room.make("table", households(USERS + 1, "other.isle"), room.at("live", "table.x"))
    os.rename(room.at("live", "table.x"), room.at("live", "table"))
    want(all_of(client.ask(lir(3)), 264) == [b"other.isle"], "a sound table in the table's place is not taken over")
    fourth = room.pair("fourth", households(1))
    os.chmod(fourth + "/table", 0o444)
    room.link("fourth")
    want(result(client.ask(lir(3))) != "X5001", "a last good file is taken over")
    room.logged("NOT taken over, .*: table: nobody may write to it")
    want(sorted(os.listdir(fourth)) == ["profile", "table"], "the folder of a last good file was written to")
    room.link("second")
    client.ask(lir(3))
    # Without a request, within a second or two.
    room.pair("fifth", households(3))
    room.link("fifth")
    room.logged("a new table is taken over, 3 records")
    room.end()


def is_locked(file):
    """Whether flock(1) would find it locked; if not, it is locked now."""
    try:
        fcntl.flock(file, fcntl.LOCK_EX | fcntl.LOCK_NB)
        return False
    except BlockingIOError:
        return True


def last_good(room):
    """A last good file is never touched, and a daemon that is told to write to it does not start. Nor does a second one."""
    def state():
        return [(name, os.stat(room.at(name)).st_mtime_ns, os.stat(room.at(name)).st_ino, sorted(os.listdir(room.at(name))) if os.path.isdir(room.at(name)) else "")
                for name in ("tables/first", "tables/first/table", "tables/first/profile", "cards", "cards/vectors")]

    def refuses(why, **where):
        before = state()
        room.start(ready=False, **where)
        try:
            status = room.process.wait(PATIENCE if why else 1)
        except subprocess.TimeoutExpired:
            status = None
        want(status == 1, "it starts though %s" % why)
        want(state() == before, "it does not start, and wrote something: %s" % why)
        room.logged(why)

    for name, mode, why in (("tables/first/table", 0o444, "nobody may write"), ("tables/first", 0o555, "nobody may write"),
                            ("cards/vectors", 0o400, "nobody may write"), ("cards", 0o555, "nobody may write")):
        mode_before = os.stat(room.at(name)).st_mode & 0o777
        os.chmod(room.at(name), mode)
        refuses(why)
        os.chmod(room.at(name), mode_before)
    os.rename(room.at("tables/first/table"), room.at("tables/first/good"))
    os.symlink("good", room.at("tables/first/table"))
    refuses("table: ")
    os.unlink(room.at("tables/first/table"))
    os.rename(room.at("tables/first/good"), room.at("tables/first/table"))
    # A vector file that is a link, a second daemon over the same vectors, or over the same table, and a script that has the lock.
    os.rename(room.at("cards/vectors"), room.at("cards/true"))
    os.symlink("true", room.at("cards/vectors"))
    refuses("vectors: it is a link: the file itself must stand here")
    os.rename(room.at("cards/true"), room.at("cards/vectors"))
    room.pair("other", households())
    shutil.copytree(room.at("cards"), room.at("more-cards"))
    room.start()
    first = room.process
    client = Client(room)
    refuses("lock of the vectors: another daemon", live="tables/other")
    with open(room.at("cards", "lock")) as lock:
        want(is_locked(lock), "a script could take the vectors' lock")
    refuses("its folder: another daemon", cards="more-cards")
    room.process = first
    client.ask(lir(1))
    room.end()
    with open(room.at("cards", "lock")) as lock:
        want(not is_locked(lock), "the lock outlives the daemon")
        refuses("lock of the vectors: another daemon")
    # A rotten vector: no challenge, and all else as ever.
    with open(room.at("cards", "vectors"), "r+b") as file:
        file.write(b"\7")
    rotten = room.blocks("cards", "vectors")
    room.start()
    client = Client(room)
    want(result(client.ask(mar(1))) == "B5012" and result(client.ask(sar(1, 1))) == "B2001", "over rotten vectors it answers otherwise")
    want(room.blocks("cards", "vectors") == rotten, "rotten vectors were stored over")
    room.end()


def lay_over(room, data, mode=0o644):
    """Another table in the place of the one that is stored, by its name."""
    with open(room.at("live", "table.x"), "wb") as file:
        file.write(data)
    os.chmod(room.at("live", "table.x"), mode)
    os.rename(room.at("live", "table.x"), room.at("live", "table"))


def declined(room):
    """A table that is declined is said to be so, once, with the file and the reason; and looked at again when anything of the pair has changed."""
    room.start()
    client = Client(room)

    def looks():
        want(result(client.ask(lir(1))) == "X2003", "another table is served")

    def said(pattern, times):
        looks()
        room.logged(pattern)
        looks()
        found = len(re.findall(pattern, room.log()))
        want(found == times, "the log has '%s' %d times, and should %d" % (pattern, found, times))

    def taken(records):
        looks()
        want("a new table is taken over, %d records" % records in room.log(), "what has changed is not looked at again at once")

    # A link that leads nowhere, for over a second, during which it is looked at again.
    room.link("nowhere")
    said(r"NOT taken over, .*/live: No such file or directory\n", 1)
    time.sleep(1.2)
    said(r"/live: No such file or directory\n", 1)
    room.link("first")
    looks()
    room.link("nowhere")
    said(r"/live: No such file or directory\n", 2)
    # A last good file that becomes a table to serve by its mode alone.
    second = room.pair("second", households(2))
    os.chmod(second + "/table", 0o444)
    room.link("second")
    said("NOT taken over, .*: table: nobody may write to it", 1)
    time.sleep(1.2)
    said("NOT taken over, .*: table: nobody may write to it", 1)
    os.chmod(second + "/table", 0o644)
    taken(2)
    # By the folder's mode.
    third = room.pair("third", households(3))
    os.chmod(third, 0o555)
    room.link("third")
    said("NOT taken over, .*: table: nobody may write to it", 2)
    os.chmod(third, 0o755)
    taken(3)
    # By its profile: there is none, it is too short, it is whole; the table stays as it is.
    fourth = room.pair("fourth", households(4))
    os.rename(fourth + "/profile", fourth + "/whole")
    room.link("fourth")
    said("NOT taken over, .*: profile: No such file or directory", 1)
    with open(fourth + "/whole", "rb") as whole, open(fourth + "/profile", "wb") as short:
        short.write(whole.read()[:-1])
    said("NOT taken over, .*: table: block 4 is bad: it points past the end of profile", 1)
    os.rename(fourth + "/whole", fourth + "/profile")
    taken(4)
    # By a lock that another daemon gives back, which no file shows.
    fifth = room.pair("fifth", households(5))
    folder = os.open(fifth, os.O_RDONLY)
    want(not is_locked(folder), "the folder is locked before anybody serves from it")
    room.link("fifth")
    said("NOT taken over, .*: its folder: another daemon has it", 1)
    os.close(folder)
    room.logged("a new table is taken over, 5 records")
    # By a disk that has room again.
    room.pair("sixth", households(6))
    open(room.at("disk-full"), "w").close()
    room.link("sixth")
    said("NOT taken over, .*: table: No space left on device", 1)
    os.unlink(room.at("disk-full"))
    room.logged("a new table is taken over, 6 records")
    room.end()


def reachable(path):
    """Whether another user can come as far as this folder."""
    path = os.path.realpath(path)
    return bool(os.stat(path).st_mode & 1) and (path == "/" or reachable(os.path.dirname(path)))


def can_be_nobody():
    """Whether this user may become another."""
    child = os.fork()
    if child == 0:
        try:
            os.setgroups([])
            os.setgid(NOBODY)
            os.setuid(NOBODY)
            os._exit(0)
        except OSError:
            os._exit(1)
    return os.waitpid(child, 0)[1] == 0


def two_users(room):
    """The daemon is nobody, and root's script has a umask that keeps the new table from it."""
    if not can_be_nobody() or not reachable(room.path):
        print("client.py: two_users is left out: it takes root, and a folder that others can reach")
        return
    for path, folders, files in os.walk(room.path):
        for name in [path] + [os.path.join(path, file) for file in files]:
            os.chown(name, NOBODY, NOBODY)
    room.start(DAEMON_USER=str(NOBODY))
    client = Client(room)
    want(result(client.ask(sar(1, 1))) == "B2001", "nobody cannot store")
    before = os.umask(0o027)
    try:
        second = room.pair("second", households(2))
    finally:
        os.umask(before)
    room.link("second")
    for _ in range(3):
        want(result(client.ask(lir(1))) == "B2001", "the old table is not served")
    want(len(re.findall("NOT taken over, .*/live: Permission denied", room.log())) == 1, "a switch that does not happen is not in the log, or again and again")
    for mode, why in (0o755, "table: nothing may be stored in its folder by this user"), (0o777, "table: Permission denied"):
        os.chmod(second, mode)
        client.ask(lir(1))
        room.logged("NOT taken over, .*: " + why)
    os.chmod(second + "/table", 0o644)
    os.chmod(second + "/profile", 0o600)
    client.ask(lir(1))
    room.logged("NOT taken over, .*: profile: Permission denied")
    os.chmod(second + "/profile", 0o644)
    want(result(client.ask(lir(1))) == "X2003", "a table that may be read at last is not taken over")
    # A damaged table of root's over nobody's: a second name for it is forbidden.
    want(result(client.ask(sar(1, 1))) == "B2001", "nobody cannot store in root's folder")
    lay_over(room, b"rubbish")
    want(result(client.ask(lir(1))) == "B2001" and room.lines()[b"sip:user1@isle"][0] == 1, "what was answered is not on disk any more")
    with open(room.at("live", "table.declined"), "rb") as file:
        want(file.read() == b"rubbish", "what was declined is not kept")
    room.end()


def laid_over(room):
    """A damaged table over ours, on a disk without room: it stays until ours can be stored, nothing that alters is answered, all else is."""
    os.chmod(room.at("live", "table"), 0o600)
    room.start()
    client, other = Client(room), Client(room)
    want(result(client.ask(sar(1, 1))) == "B2001", "no room from the start")
    ours = room.blocks("live", "table")
    open(room.at("disk-full"), "w").close()
    lay_over(room, b"rubbish", 0o444)
    for asked in sar(2, 1), mar(2), sar(1, 5), mar(1):
        client.send(asked)
        want(result(other.ask(lir(1))) == "B2001" and result(other.ask(lir(2))) != "B2001", "what is not stored is told to others")
        want(client.answer(0.1) is None, "what alters is answered while another table lies over ours")
        want(room.blocks("live", "table") == [b"rubbish"], "there is no table, or another")
    want(not room.used(), "a vector was used")
    room.logged("NOT taken over, .*: table: nobody may write to it")
    room.logged("table: ours is NOT STORED where another was laid over it")
    time.sleep(1.2)
    want(room.blocks("live", "table") == [b"rubbish"], "there is no table, or another")
    want(room.log().count("ours is NOT STORED") == 1 and room.log().count("NOT taken over") == 1, "what lasts is said again and again")
    os.unlink(room.at("disk-full"))
    room.logged("table: ours is stored again")
    want(room.blocks("live", "table") == ours, "ours is not on disk again")
    want(os.stat(room.at("live", "table")).st_mode & 0o777 == 0o600, "ours has another mode")
    with open(room.at("live", "table.declined"), "rb") as file:
        want(file.read() == b"rubbish", "what was declined is not kept")
    want(result(client.ask(sar(2, 1))) == "B2001" and len(rands(client.ask(mar(2)))) == 1, "once there is room it is not answered")
    want(sorted(os.listdir(room.at("live"))) == ["profile", "table", "table.declined"], "something is left")
    os.unlink(room.at("live", "table"))
    client.ask(lir(1))
    want(room.lines()[b"sip:user2@isle"][0] == 1, "a table that was removed is not stored again")
    # One that is killed between two renames.
    room.kill()
    os.rename(room.at("live", "table"), room.at("live", "table.ours"))
    room.start()
    want(result(Client(room).ask(lir(2))) == "B2001", "a registration is gone")
    room.end()


def sizes(room):
    """What cannot be a table, a profile or a vector file by its size is not read."""
    def sparse(path, size):
        with open(path, "wb") as file:
            file.truncate(size)

    room.start()
    client = Client(room)
    second = room.pair("second", households(2))
    for name, size in ("table", 4098 * 512), ("table", 4097 * 512 + 1), ("table", 3 << 30), ("profile", 3 << 30):
        os.rename(second + "/" + name, second + "/true")
        sparse(second + "/" + name, size)
        room.link("second")
        want(result(client.ask(lir(1))) == "X2003", "a table that is none is taken over")
        room.logged("NOT taken over, .*: %s: it has %d bytes, and may have" % (name, size))
        room.link("first")
        client.ask(lir(1))
        os.rename(second + "/true", second + "/" + name)
    room.end()
    os.rename(room.at("cards/vectors"), room.at("cards/true"))
    sparse(room.at("cards/vectors"), 3 << 30)
    room.start()
    room.logged("vectors: it has %d bytes, and may have 2097152 at most, in blocks of 512: NO CHALLENGES" % (3 << 30))
    client = Client(room)
    want(result(client.ask(mar(1))) == "B5012" and result(client.ask(sar(1, 1))) == "B2001", "over vectors that are none it answers otherwise")
    want(os.stat(room.at("cards/vectors")).st_size == 3 << 30, "vectors that are none were stored over")
    room.end()


def put_in(room):
    """Vectors that are put in under a running daemon, past its lock, are not lost without a word."""
    room.start()
    client = Client(room)
    want(len(rands(client.ask(mar(1)))) == 1, "no vectors")
    used = room.used()
    shutil.copy(room.at("cards", "vectors"), room.at("cards", "next"))
    os.rename(room.at("cards", "next"), room.at("cards", "vectors"))
    others = os.stat(room.at("cards", "vectors")).st_ino
    for _ in range(2):
        want(len(rands(client.ask(mar(2)))) == 1, "no vectors")
    want(len(room.used() - used) == 2, "what was sent is not used on disk")
    want(room.log().count("others were put in under the running daemon: NOT taken over, and kept as vectors.declined") == 1, "there is no word of it")
    want(os.stat(room.at("cards", "vectors.declined")).st_ino == others, "others are kept")
    room.end()
