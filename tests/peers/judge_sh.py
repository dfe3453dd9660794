#!/usr/bin/env python3
"""judge_sh.py CAPTURE: what tshark reads of every message of Sh, requests and answers, at the daemon and at the relay: each has its other half, and each
answer the AVPs that its result and its request ask for, with a document that tshark's own reader of XML takes apart. It may complain of what was sent
wrong on purpose, and of nothing else. Then the same of a copy in which one document is longer than its message: it must complain."""
import collections
import html
import subprocess
import sys
import xml.etree.ElementTree

from judge import said

SH, TGPP, STATE, NAME = "16777217", "10415", "11", "12"
RESULTS = {"B2001", "B3001", "B5001", "B5004", "B5005", "B5009", "B5014", "X5001", "X5100"}
# An answer's AVPs, in this order; the last is a relay's.
ORDER = ["263", "260", "268", "297", "277", "264", "296", "702", "279", "284", "282"]
# AVPs of document 001 that the dictionary of tshark 4.0 does not have.
NOT_THERE = ("Unknown AVP 720 ",)


class Message:
    def __init__(self, frame, proto):
        self.frame, self.proto = frame, proto
        self.is_request = self.field("diameter.flags.request") in ("1", "True")
        self.command, self.to, self.answered = (self.field("diameter." + name) for name in ("cmd.code", "answer_to", "answer_in"))
        self.named = {name: text(proto, "diameter." + name, "showname") for name in ("cmd.code", "applicationId")}
        self.avps = [avp for avp in proto if avp.get("name") == "diameter.avp"]
        self.codes = [text(avp, "diameter.avp.code") for avp in self.avps]
        self.complaints = complaints(proto, [])

    def field(self, name):
        return text(self.proto, name)

    def texts(self, name):
        return [field.get("show") for avp in self.avps for field in avp.iter("field") if field.get("name") == name]

    def result(self):
        base = self.texts("diameter.Result-Code")
        return "B" + base[0] if base else "X" + "".join(self.texts("diameter.Experimental-Result-Code"))

    def asked(self):
        return self.texts("diameter.Data-Reference")


def text(element, name, what="show"):
    return next((field.get(what) for field in element.iter("field") if field.get("name") == name), None)


def complaints(element, groups):
    """What tshark complains of, each with the codes of the AVPs around it."""
    found = []
    for child in element:
        name = child.get("name")
        if name == "_ws.expert.message":
            found.append((groups, child.get("show")))
        if name == "_ws.malformed":
            found.append((groups, "malformed"))
        found += complaints(child, groups + [text(child, "diameter.avp.code")] if name == "diameter.avp" else groups)
    return found


def messages(capture):
    command = ["tshark", "-r", capture, "-d", "tcp.port==3868,diameter", "-2", "-Y", "diameter.applicationId == " + SH, "-T", "pdml", "-J", "diameter xml"]
    output = subprocess.run(command, stdout=subprocess.PIPE, stderr=subprocess.DEVNULL, check=True).stdout
    for packet in xml.etree.ElementTree.fromstring(output).iter("packet"):
        frame = next(field.get("show") for field in packet.iter("field") if field.get("name") == "num")
        for proto in packet:
            if proto.get("name") == "diameter" and text(proto, "diameter.applicationId") == SH:
                yield Message(frame, proto)
            elif proto.get("name") == "_ws.malformed":
                raise ValueError("frame %s is malformed" % frame)


def elements(avp):
    """The elements of a document and their text, as tshark's reader of XML shows them."""
    tags = [field for field in avp.iter("field") if field.get("name") == "xml.tag"]
    return [(tag.get("show"), html.unescape("".join(part.get("show") for part in tag if part.get("name") == "xml.cdata"))) for tag in tags]


def wrong_document(request, answer):
    """What is wrong with the document of an answer to that request, or None."""
    avp = next(one for one, code in zip(answer.avps, answer.codes) if code == "702")
    head = [text(avp, "diameter.avp.vendorId"), text(avp, "diameter.avp.flags")]
    tags = elements(avp)
    names = [name for name, _ in tags]
    told = [name for name in names[2:]]
    wanted = ["<SCSCFName>"] * ("<SCSCFName>" in told and NAME in request.asked()) + ["<IMSUserState>"] * (STATE in request.asked())
    if head != [TGPP, "0xc0"]:
        return "702 has vendor and flags %s" % head
    if text(avp, "diameter.Sh-User-Data") is None or names[:2] != ["<Sh-Data>", "<Sh-IMS-Data>"]:
        return "702 is read as %s" % tags
    if told != wanted or not all(content for _, content in tags[2:]):
        return "the document tells %s of %s" % (tags[2:], request.asked())
    if any(name == "<IMSUserState>" and content not in "0123" for name, content in tags[2:]):
        return "the state is %s" % tags[2:]
    return None


def wrong_pair(request, answer):
    """What is wrong with an answer to that request, or None."""
    if request.command == "306" and "User-Data (306)" not in answer.named["cmd.code"] or "3GPP Sh" not in answer.named["applicationId"]:
        return "it is called %s" % answer.named
    if answer.command != request.command:
        return "it is a %s for a %s" % (answer.command, request.command)
    counts = [answer.codes.count(code) for code in ("702", "279")]
    if counts != [answer.result() == "B2001", answer.result().startswith("B5")] or answer.codes != sorted(answer.codes, key=ORDER.index):
        return "%s has the AVPs %s" % (answer.result(), answer.codes)
    return wrong_document(request, answer) if answer.result() == "B2001" else None


def excused(message, result):
    """Of the complaints, those that belong to what was sent wrong on purpose, and comes back in Failed-AVP; and whether these are all."""
    fine = [what for groups, what in message.complaints
            if (message.is_request and (result != "B2001" or what.startswith(NOT_THERE))) or (not message.is_request and groups[:1] == ["279"])]
    return fine, len(fine) == len(message.complaints)


def judge(capture):
    """Requests by command, answers by result, identities, excused complaints, and what is wrong."""
    requests, answers, identities, fine, wrong = collections.Counter(), collections.Counter(), set(), collections.Counter(), []
    by_frame = collections.defaultdict(list)
    for message in messages(capture):
        by_frame[message.frame].append(message)
    everyone = [message for one in by_frame.values() for message in one]
    for message in everyone:
        others = [one for one in by_frame[message.answered if message.is_request else message.to] if one.is_request != message.is_request]
        halves = [one for one in others if one.field("diameter.hopbyhopid") == message.field("diameter.hopbyhopid")]
        if len(halves) != 1:
            wrong.append("frame %s has no other half" % message.frame)
            continue
        request, answer = (message, halves[0]) if message.is_request else (halves[0], message)
        if message.is_request:
            requests[message.command] += 1
            identities.update(message.texts("diameter.Public-Identity"))
        else:
            answers[answer.result()] += 1
            problem = wrong_pair(request, answer)
            wrong += ["frame %s: %s" % (message.frame, problem)] if problem else []
        excuse, is_all = excused(message, answer.result())
        fine.update(excuse)
        wrong += ["frame %s: %s" % (message.frame, message.complaints)] if not is_all else []
    return requests, answers, identities, fine, wrong


def damaged(capture):
    """A copy in which the first document, and nothing else, is longer than its message."""
    with open(capture, "rb") as file:
        data = file.read()
    at = data.index(b"\x00\x00\x02\xbe\xc0\x00")
    with open(capture + ".damaged-sh", "wb") as file:
        file.write(data[:at + 5] + b"\x00\xff\xff" + data[at + 8:])
    return capture + ".damaged-sh"


def main():
    requests, answers, identities, fine, wrong = judge(sys.argv[1])
    print("judge_sh.py: tshark read %d requests (%s) for %d identities, and %d answers (%s)" %
          (sum(requests.values()), said(requests), len(identities), sum(answers.values()), said(answers)))
    print("judge_sh.py: its complaints of what was sent wrong on purpose, or of what its dictionary does not have: %s" % said(fine))
    wrong += ["no answer was %s" % one for one in sorted(RESULTS - set(answers))]
    wrong += ["%d requests and %d answers" % (sum(requests.values()), sum(answers.values()))] if sum(requests.values()) != sum(answers.values()) else []
    wrong += [] if wrong or judge(damaged(sys.argv[1]))[4] else ["of a copy with a damaged answer tshark says nothing"]
    for one in wrong[:20]:
        print("judge_sh.py: WRONG: " + one)
    return 1 if wrong else 0


if __name__ == "__main__":
    sys.exit(main())
