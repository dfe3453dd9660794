#!/usr/bin/env python3
"""judge.py CAPTURE: what tshark says of every message that the daemon sent, but for those of Sh, which are judge_sh.py's: whole, without a complaint, and
each answer to a request; and who asked for features, which nobody else is told. Then the same of a copy in which one answer is damaged: it must complain."""
import collections
import subprocess
import sys

OTHERS = "diameter && !(diameter.applicationId == 16777217)"
TO_DAEMON = OTHERS + " && ip.dst == 127.0.0.1 && tcp.dstport == 3868"
BY_DAEMON = OTHERS + " && ip.src == 127.0.0.1 && tcp.srcport == 3868"
NAMES = {"257": "CEA", "280": "DWA", "282": "DPA", "300": "UAA", "301": "SAA", "302": "LIA", "303": "MAA"}


def fields(capture, which, names):
    command = ["tshark", "-r", capture, "-d", "tcp.port==3868,diameter", "-2", "-Y", which, "-T", "fields", "-E", "separator=|", "-E", "occurrence=a", "-E", "aggregator=,"]
    for name in names:
        command += ["-e", name]
    lines = subprocess.run(command, stdout=subprocess.PIPE, stderr=subprocess.DEVNULL, check=True, text=True).stdout.splitlines()
    return [line.split("|") for line in lines]


def listed(text):
    return [one for one in text.split(",") if one]


def judge(capture):
    """Answers by name, requests, answers without their request, complaints."""
    answers, requests, unpaired, complaints = collections.Counter(), 0, 0, []
    names = ["frame.number", "diameter.flags.request", "diameter.cmd.code", "diameter.answer_to", "_ws.malformed", "_ws.expert.message"]
    for frame, flags, codes, to, malformed, expert in (line[:6] for line in fields(capture, BY_DAEMON, names)):
        of = [NAMES.get(code, "other") for code, flag in zip(listed(codes), listed(flags)) if flag not in ("1", "True")]
        answers.update(of)
        requests += len(listed(flags)) - len(of)
        unpaired += len(of) - len(listed(to))
        spoken = [one for one in listed(expert) if not one.startswith(("Connection", "TCP"))]
        if malformed or spoken:
            complaints.append("frame %s: %s %s" % (frame, malformed, "; ".join(spoken)))
    return answers, requests, unpaired, complaints


def tally(capture, which, name, letter):
    return collections.Counter(letter + one for line in fields(capture, which, [name]) for one in listed(line[0]))


def features(capture, which, name):
    """How many frames have a Supported-Features (628), by that name in them: each message of the trials that has one stands alone in its frame."""
    lines = fields(capture, which, [name, "diameter.avp.code"])
    return collections.Counter(listed(line[0])[0] for line in lines if "628" in listed(line[1]))


def said(counter):
    return ", ".join("%s %d" % (name, count) for name, count in sorted(counter.items())) or "none"


def damaged(capture):
    """A copy whose first MAA has a Session-Id that is longer than the message."""
    with open(capture, "rb") as file:
        data = file.read()
    at = data.index(b"\x40\x00\x01\x2f\x01\x00\x00\x00") + 16
    with open(capture + ".damaged", "wb") as file:
        file.write(data[:at + 5] + b"\x00\xff\xff" + data[at + 8:])
    return capture + ".damaged"


def main():
    capture = sys.argv[1]
    answers, requests, unpaired, complaints = judge(capture)
    print("judge.py: tshark read %d answers of the daemon (%s) and %d requests; %d without their request, %d with a complaint" %
          (sum(answers.values()), said(answers), requests, unpaired, len(complaints)))
    for complaint in complaints[:20]:
        print("judge.py: " + complaint)
    types = tally(capture, TO_DAEMON, "diameter.Server-Assignment-Type", "")
    results = tally(capture, BY_DAEMON, "diameter.Result-Code", "B") + tally(capture, BY_DAEMON, "diameter.Experimental-Result-Code", "X")
    print("judge.py: SARs by type: %s; results: %s" % (said(types), said(results)))
    asking, told = features(capture, TO_DAEMON, "diameter.Origin-Host"), features(capture, BY_DAEMON, "diameter.Origin-Host")
    print("judge.py: Supported-Features came from: %s; and went out from: %s" % (said(asking), said(told)))
    noticed = bool(judge(damaged(capture))[3])
    print("judge.py: of a copy with a damaged answer tshark %s" % ("complains" if noticed else "says nothing"))
    wrong = ["no %s was sent" % one for one in sorted({"CEA", "DWA", "DPA"} - set(answers))]
    wrong += ["no SAR of type %s came" % one for one in sorted({"1", "2", "3", "5"} - set(types))]
    wrong += ["no answer was %s" % one for one in sorted({"B2001", "B5003", "B5012", "X2001", "X5001", "X5003", "X5004", "X5006", "X5011"} - set(results))]
    wrong += ["%d asked for features, and %d were told" % (sum(asking.values()), sum(told.values()))] if sum(asking.values()) != sum(told.values()) else []
    wrong += ["only %d answers" % sum(answers.values())] if sum(answers.values()) <= 50 else []
    wrong += ["answers without their request"] if unpaired else []
    wrong += ["complaints"] if complaints else []
    wrong += ["the damaged answer is not noticed"] if not noticed else []
    for one in wrong:
        print("judge.py: WRONG: " + one)
    return 1 if wrong else 0


if __name__ == "__main__":
    sys.exit(main())
