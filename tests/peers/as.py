#!/usr/bin/env python3
"""as.py TABLE LOG: has Kamailio (as.cfg) ask over Sh for each line of the table, and for what is not served. LOG is Kamailio's: the documents that it read
in the answers must say what the table on disk has. It ends with status 1 at the first thing that goes wrong."""
import json
import re
import socket
import sys
import time
import xml.etree.ElementTree

SERVER = ("192.0.2.5", 5060)
TABLE, LOG = sys.argv[1:3]
STATE, NAME = 11, 12
# How ims_diameter_server writes an AVP of an answer to its log, and its data behind it.
READ = re.compile(r"code=(\d+),flags=([0-9a-f]+);\nDataType=\d+;VendorID=(\d+);DataLen=(\d+);")
DOCUMENT = re.compile(r"code=702,flags=c0;\nDataType=0;VendorID=10415;DataLen=(\d+);\n[^\n]*avp2json\(\): (<\?xml.*?</Sh-Data>) ", re.S)


def fail(what):
    print("as.py: " + what)
    sys.exit(1)


def avp(code, value, vendor=0):
    kind = "list" if isinstance(value, list) else "int32" if isinstance(value, int) else "string"
    return {"avpCode": code, "vendorId": vendor, "Flags": 192 if vendor else 64, kind: value}


def request(identity, references):
    application = avp(260, [avp(266, 10415), avp(258, 16777217)])
    return [application, avp(277, 1), avp(283, "isle"), avp(700, [avp(601, identity, 10415)], 10415)] + [avp(703, one, 10415) for one in references]


def lines():
    """Each line's public identity, the state that is told, and its server's name."""
    with open(TABLE, "rb") as file:
        data = file.read()
    for at in range(512, len(data), 512):
        b = data[at:at + 512]
        yield b[16:16 + b[13]].decode(), 3 if b[8] == 0 and b[9] & 1 else b[8], b[272:272 + b[15]].decode()


def log():
    with open(LOG, encoding="utf-8", errors="replace") as file:
        return file.read()


def ask(asker, number, identity, references):
    """What Kamailio's log says of the answer."""
    before, body = len(log()), json.dumps(request(identity, references)).encode()
    head = ["MESSAGE sip:306@as.isle SIP/2.0", "Via: SIP/2.0/UDP 192.0.2.10:5060;branch=z9hG4bK%d" % number, "From: <sip:trial@isle>;tag=trial",
            "To: <sip:306@as.isle>", "Call-ID: call-%d" % number, "CSeq: 1 MESSAGE", "Max-Forwards: 70", "Content-Type: application/json",
            "Content-Length: %d" % len(body), "", ""]
    asker.sendto("\r\n".join(head).encode() + body, SERVER)
    if not asker.recv(65536).startswith(b"SIP/2.0 200 answered"):
        fail("%s %s: Kamailio got no answer" % (identity, references))
    for _ in range(50):
        if "code=296," in log()[before:]:
            break
        time.sleep(0.02)
    time.sleep(0.05)
    return log()[before:]


def told(answer):
    """The elements of the document that Kamailio read, or None if there was none."""
    found = DOCUMENT.search(answer)
    if found is None:
        return None
    if len(found.group(2).encode()) != int(found.group(1)):
        fail("a document of %s bytes is logged as %s" % found.groups())
    return [(one.tag, one.text) for one in xml.etree.ElementTree.fromstring(found.group(2).encode()).find("Sh-IMS-Data")]


def main():
    asker, count = socket.socket(socket.AF_INET, socket.SOCK_DGRAM), 0
    asker.bind(("192.0.2.10", 5060))
    asker.settimeout(8)
    for identity, state, name in lines():
        for references in ([STATE], [NAME], [NAME, STATE]):
            count += 1
            wanted = [("SCSCFName", name)] * (NAME in references and name != "") + [("IMSUserState", str(state))] * (STATE in references)
            got = told(ask(asker, count, identity, references))
            if got != wanted:
                fail("%s %s: it read %s instead of %s" % (identity, references, got, wanted))
    print("as.py: Kamailio read %d documents, each as the table has it" % count)
    for identity, references in (("sip:nobody@isle", [STATE]), ("sip:desk@isle", [10]), ("sip:desk@isle", [STATE, 13])):
        count += 1
        answer = ask(asker, count, identity, references)
        codes = [found.group(1) for found in READ.finditer(answer)]
        if "297" not in codes or "268" in codes or told(answer) is not None:
            fail("%s %s: it read the AVPs %s" % (identity, references, codes))
    print("as.py: and 3 answers with an Experimental-Result and no document")


main()
