"""The daemon with its files, and peers of it."""
import os
import random
import re
import shutil
import signal
import socket
import struct
import subprocess
import time

from trials.want import PATIENCE, Wrong, want
from trials.messages import DWR, avp, base, cer, result

USERS, VECTORS = 40, 22


class Room:
    def __init__(self, path, maketable, command, kills):
        self.path, self.maketable, self.command, self.kills = path, maketable, command, kills
        self.process = self.port = None
        self.logs, self.clients, self.processes = 0, [], []

    def at(self, *names):
        return os.path.join(self.path, *names)

    def make(self, what, text, to):
        with open(self.at("text"), "w") as file:
            file.write(text)
        with open(to, "wb") as file:
            subprocess.run([self.maketable, what, self.at("text")], stdout=file, check=True)

    def pair(self, folder, text):
        os.makedirs(self.at("tables", folder), exist_ok=True)
        for what in "table", "profile":
            self.make(what, text, self.at("tables", folder, what))
        return self.at("tables", folder)

    def link(self, folder):
        os.symlink(os.path.join("tables", folder), self.at("live.new"))
        os.rename(self.at("live.new"), self.at("live"))

    def prepare(self):
        shutil.rmtree(self.path, ignore_errors=True)
        os.makedirs(self.at("cards"))
        self.pair("first", households())
        self.link("first")
        self.make("vectors", cards(), self.at("cards", "vectors"))

    def start(self, ready=True, live="live", cards="cards", options=(), **environment):
        self.logs += 1
        self.log_path = self.at("log%d" % self.logs)
        with open(self.log_path, "w") as log:
            self.process = subprocess.Popen(self.command + ["-p", "0", *options, self.at(live), self.at(cards)], stderr=log,
                                            env=dict(os.environ, SLOW_DISK=self.path, **environment))
        self.processes.append(self.process)
        if ready:
            self.port = int(self.logged(r"listening on 127\.0\.0\.1 port (\d+)").group(1))

    def log(self):
        with open(self.log_path) as log:
            return log.read()

    def logged(self, pattern, patience=PATIENCE):
        until = time.time() + patience
        while time.time() < until:
            found = re.search(pattern, self.log())
            if found:
                return found
            time.sleep(0.005)
        raise Wrong("the log has no '%s'" % pattern)

    def end(self):
        while self.clients:
            self.clients.pop().close()
        self.process.send_signal(signal.SIGTERM)
        want(self.process.wait(PATIENCE) == 0, "it ends with status %s" % self.process.returncode)

    def kill(self):
        """All that were started, since a trial may have more than one."""
        while self.processes:
            process = self.processes.pop()
            process.kill()
            process.wait()

    def blocks(self, *names):
        with open(self.at(*names), "rb") as file:
            data = file.read()
        return [data[at:at + 512] for at in range(0, len(data), 512)]

    def lines(self):
        """State, pending and server by public identity, as the table on disk has them."""
        return {b[16:16 + b[13]]: (b[8], b[9] & 1, b[272:272 + b[15]]) for b in self.blocks("live", "table")[1:]}

    def used(self):
        return {b[132:164] for b in self.blocks("cards", "vectors") if b[1] == 1}


def households(users=USERS, host="hss.isle", keep=1):
    text = ["host=%s realm=isle keep=%d\nnetwork=isle\n" % (host, keep)]
    for user in range(users):
        text.append('public=sip:user%d@isle private=user%d@isle\nunregistered-services\nroaming=isle\nprofile="<P>user%d</P>"\n' % (user, user, user))
    return "\n".join(text)


def cards(users=USERS, vectors=VECTORS):
    draw = random.Random(1)
    word = lambda: "%032x" % draw.getrandbits(128)
    one = "private=user%d@isle rand=%s autn=%s xres=%s confidentiality=%s integrity=%s\n"
    return "\n".join(one % (user, word(), word(), word()[:16], word(), word()) for _ in range(vectors) for user in range(users))


class Client:
    def __init__(self, room, greet=True, host=b"scscf1.isle"):
        self.socket = socket.create_connection(("127.0.0.1", room.port), PATIENCE)
        self.socket.setsockopt(socket.IPPROTO_TCP, socket.TCP_NODELAY, 1)
        self.rest = b""
        self.watchdogs = 0
        room.clients.append(self)
        if greet:
            self.greeting = self.ask(cer(host=host))
            want(result(self.greeting) == "B2001", "a CER is not answered with success")

    def send(self, data):
        self.socket.sendall(data)

    def answer(self, patience=PATIENCE):
        """The next message that is no DWR, which is answered; None if the daemon hung up, or patience ran out."""
        until = time.time() + patience
        whole = self.message(patience)
        while whole is not None and whole[4:8] == b"\x80\0\1\x18":
            self.watchdogs += 1
            try:
                self.send(base(DWR, avp(268, 2001), flags=0, hop=struct.unpack(">I", whole[12:16])[0]))
            except ConnectionError:
                pass  # what came before is still to be read
            whole = self.message(max(0.001, until - time.time()))
        return whole

    def message(self, patience):
        self.socket.settimeout(patience)
        try:
            while len(self.rest) < 20 or len(self.rest) < struct.unpack(">I", self.rest[:4])[0] & 0xFFFFFF:
                more = self.socket.recv(65536)
                if not more:
                    return None
                self.rest += more
        except (socket.timeout, ConnectionError):
            return None
        length = struct.unpack(">I", self.rest[:4])[0] & 0xFFFFFF
        whole, self.rest = self.rest[:length], self.rest[length:]
        return whole

    def ask(self, data):
        self.send(data)
        answer = self.answer()
        want(answer is not None, "no answer")
        want(answer[12:20] == data[12:20] and not answer[4] & 0x80 and answer[4:8] != data[4:8], "an answer to something else")
        return answer

    def is_gone(self, patience=PATIENCE):
        self.socket.settimeout(patience)
        try:
            return self.socket.recv(65536) == b""
        except ConnectionError:
            return True
        except socket.timeout:
            return False

    def close(self):
        self.socket.close()
