#!/usr/bin/env python3
"""client.py ROOM MAKETABLE KILLS TRIAL.. -- DAEMON..: a client for the daemon of the examples, which it starts anew for each trial (trials/).
The daemon is built with slow-disk.h and LOOK_AGAIN=1, and for the trials greeting, slow and ending with QUIET=3, GREETING=1, FAREWELL=1. KILLS is
about how often the trial `kills` kills it.
Status 0 if all trials went as they should, 1 if one did not."""
import os
import signal
import socket
import subprocess
import sys
import time

from trials.connections import cut, ending, garbage, greeting, many, slow
from trials.files import declined, laid_over, last_good, put_in, replaced, sizes, two_users
from trials.requests import crowded, editions, features, timed_out, twice, voicemail
from trials.room import Room
from trials.rows import row_full, row_kills, row_order, rows
from trials.storing import full, kills, spoilt
from trials.takeovers import taken, taken_over_kills
from trials.want import Wrong

TRIALS = {trial.__name__: trial for trial in (greeting, cut, many, garbage, slow, replaced, declined, two_users, laid_over, sizes, taken,
                                              taken_over_kills, put_in, timed_out, editions, features, voicemail,
                                              last_good, ending, twice, crowded, full, kills, spoilt, rows, row_order, row_full, row_kills)}


def main():
    signal.signal(signal.SIGTERM, lambda number, frame: sys.exit(128 + number))  # and no daemon stays
    split = sys.argv.index("--")
    path, maketable, kill_count = sys.argv[1:4]
    room = Room(path, os.path.realpath(maketable), sys.argv[split + 1:], int(kill_count))
    names = sys.argv[4:split]
    for name in names:
        begun = time.time()
        room.prepare()
        try:
            TRIALS[name](room)
        except Wrong as wrong:
            print("client.py: %s: %s" % (name, wrong), file=sys.stderr)
            return 1
        except (subprocess.TimeoutExpired, ConnectionError, FileNotFoundError, socket.timeout, KeyError) as wrong:
            print("client.py: %s: %r" % (name, wrong), file=sys.stderr)
            return 1
        finally:
            room.kill()
        print("client.py: %s, %.1f s" % (name, time.time() - begun))
    return 0


if __name__ == "__main__":
    sys.exit(main())
