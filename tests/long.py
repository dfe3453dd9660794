#!/usr/bin/env python3
"""long.py SECONDS SEED: every long check, in at most SECONDS by the clock, of which each has its share; what one leaves goes to the next.

A check is a target of the Makefile, run in rounds: the first is a small one, each next one as much larger as fits into the share, with the next seed. Each
round's command is told, which runs it again. At the end stands what each check covered, in whole rounds. All of it is also in target/long.txt, which begins with
the command that runs the same seeds again. Status 0 if every round was right and every check had one; 1 if a round failed, or a check had no time for one."""
import collections, glob, os, re, signal, subprocess, sys, time

NOTES = 'target/long.txt'
ENDING = 3  # seconds kept back, in which a round that is cut ends what it started
# The variable of a round's size, none for what has one round; the size of the first and the most; how many parts of the time; what it says that it covered, and
# how that is told.
Check = collections.namedtuple('Check', 'target size first most parts said told')
CHECKS = [
    Check('mutants', None, 0, 0, 2, r'^(\d+) of (\d+) faults noticed', '%d of %d faults noticed'),
    Check('stats', None, 0, 0, 1, r'^ *(\d+) (?:cases|pairs)(?:$|:)', '%d cases looked at, and nothing that they must have is lacking'),
    Check('definitions-check', 'COUNT_DEFINITIONS', 12, 300, 6, r'agree in (\d+) cases of \d+ kinds, in (\d+) take-overs and in (\d+) calls of Sh',
          '%d calls, %d take-overs and %d calls of Sh computed from the definitions'),
    Check('cuts', 'COUNT_cuts', 50, 1000, 1, r'^cuts: (\d+) take-overs killed', '%d take-overs killed'),
    Check('parsed', 'COUNT_parsed', 1000, 100000, 1, r'(\d+) documents:', '%d documents read by an XML parser'),
    Check('plain', 'COUNT_engines', 5000, 1000000, 3, r'^(\d+) calls agree', '%d calls of both engines'),
    Check('rows', 'COUNT_compared', 5000, 1000000, 2, r'^(\d+) cases agree', '%d rows of calls'),
    Check('soak', 'COUNT_round', 5000, 100000, 4, r'^(\d+) cases agree', '%d tables, vector files, calls and calls of Sh'),
]


class Run:
    def __init__(self, seconds, seed):
        self.end = time.monotonic() + seconds
        self.seed, self.failed = seed, []
        self.notes = open(NOTES, 'w')
        self.tell('make long SECONDS=%d SEED=%d' % (seconds, seed))
        self.environment = {name: value for name, value in os.environ.items() if name not in ('MAKEFLAGS', 'MFLAGS', 'MAKELEVEL', 'SECONDS', 'SEED')}

    def left(self):
        return self.end - ENDING - time.monotonic()

    def tell(self, line):
        for to in sys.stdout, self.notes:
            print(line, file=to, flush=True)

    def make(self, words, limit):
        """What a command says, and its status; none if it was cut."""
        process = subprocess.Popen(['make', '--no-print-directory', *words], stdout=subprocess.PIPE, stderr=subprocess.STDOUT, text=True, errors='replace',
                                   env=self.environment, start_new_session=True)
        try:
            said = process.communicate(timeout=max(0.1, limit))[0]
            return said, process.returncode
        except subprocess.TimeoutExpired:
            return '', None
        finally:
            if process.poll() is None:
                end_group(process)

    def round(self, check, number, size):
        """One round; what it covered, if it was right, and what it took."""
        words = [check.target, 'SEED=%d' % (self.seed + number)] + ['%s=%d' % (check.size, size)] * bool(check.size) + ['ROUNDS=1'] * (check.target == 'soak')
        began = time.monotonic()
        said, status = self.make(words, self.left() / (1 if number else 2))  # of a first round it is not known what it takes
        took = time.monotonic() - began
        found = [list(map(int, one if isinstance(one, tuple) else (one,))) for one in re.findall(check.said, said, re.MULTILINE)]
        right = status == 0 and bool(found)
        self.tell('make %s: %s, %.1f s' % (' '.join(words), 'cut, and not counted' if status is None else 'right' if right else 'FAILED', took))
        if status is not None and not right:
            self.failed.append(check.target)
            self.tell(said[-4000:].rstrip('\n') if status else 'it does not say what it covered:\n' + said[-4000:].rstrip('\n'))
        return ([sum(column) for column in zip(*found)] if right else None), took

    def check(self, check, share):
        """Rounds for so many seconds; what they covered."""
        until, size, number, covered = time.monotonic() + share, check.first, 0, None
        while size >= check.first and self.left() > 0:
            found, took = self.round(check, number, size)
            if found is None:
                break
            covered = [a + b for a, b in zip(covered, found)] if covered else found
            number += 1
            if check.size is None:
                break
            fits = size * 0.8 * (min(until, self.end - ENDING) - time.monotonic()) / max(took, 0.01)
            size = int(min(check.most, 4 * size, fits))
        return covered, number


def is_running(group):
    """Whether a process of the group is there, and more than an entry that nobody has read."""
    for stat in glob.glob('/proc/[0-9]*/stat'):
        try:
            state, _, of = open(stat).read().rpartition(')')[2].split()[:3]
        except (FileNotFoundError, ProcessLookupError):
            continue
        if int(of) == group and state not in 'ZX':
            return True
    return False


def end_group(process):
    """A round's own processes are one group. A script in it ends what it started, for which it has time."""
    until = time.monotonic() + ENDING - 1
    os.killpg(process.pid, signal.SIGTERM)
    while is_running(process.pid) and time.monotonic() < until:
        time.sleep(0.02)
    os.killpg(process.pid, signal.SIGKILL)  # the first of the group is not waited for yet, so there is one
    process.wait()


def main():
    os.chdir(os.path.join(os.path.dirname(os.path.abspath(__file__)), '..'))
    run = Run(int(sys.argv[1]), int(sys.argv[2]))
    parts, covered = sum(check.parts for check in CHECKS), []
    for check in CHECKS:
        covered.append((check, *run.check(check, max(0, run.left()) * check.parts / parts)))
        parts -= check.parts
    for check, found, rounds in covered:
        seeds = 'seed %d' % run.seed if rounds == 1 else 'seeds %d to %d' % (run.seed, run.seed + rounds - 1)
        run.tell('long: %s: %s' % (check.target, '%s; %s' % (check.told % tuple(found), seeds) if found else 'NOTHING'))
    wrong = sorted(set(run.failed) | {check.target for check, found, _ in covered if not found})
    run.tell('long: %s; %s' % ('not right, or without time for a round: ' + ' '.join(wrong) if wrong else 'all right', 'make long SECONDS=%s SEED=%d runs these seeds again' % (
        sys.argv[1], run.seed)))
    return 1 if wrong else 0


if __name__ == '__main__':
    sys.exit(main())
