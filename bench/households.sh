#!/usr/bin/env bash
# households.sh RECORDS NAMES [EDITION [MEMBERS]]: the text of a table to be timed, of edition 1 or, with an issue, of edition 2.
# NAMES is `short`, as lines are named on the isle; `ims`, as 3GPP has operators name them; `long`, every name at its limit and all
# alike but for the last digits, which is the most that a check can have to do; `tiny`, all under one card and registered, and so
# short that one request can name 1,000; or `alike`, names of cards that the check, which looks for sets by a number made of the
# name, cannot tell apart by it.
# MEMBERS is how many records each set has, far apart in the table; without it there are no sets.
set -euo pipefail
awk -v records="$1" -v names="$2" -v edition="${3-1}" -v members="${4-0}" 'BEGIN {
    print "host=hss.isle realm=isle keep=1 network=isle network=guest.example" (edition == 2 ? " issue=7" : "")
    public = "sip:+290%05d@isle"; private = "%05d@isle"; server = "sip:scscf1.isle:6060"
    if (names == "long") {
        public = "sip:%0119d@isle"; private = "%0123d@isle"; server = "sip:" sprintf("%087d", 0) ":6060"
    }
    if (names == "ims") {
        domain = "ims.mnc001.mcc001.3gppnetwork.org"
        public = "sip:+290%05d@" domain; private = "%05d@" domain; server = "sip:scscf1." domain ":6060"
    }
    if (names == "tiny") {
        public = "%04d"; private = "q"; server = "s"
    }
    # the first halves of all eights are the same, and the others have the same sum
    if (names == "alike") private = "aaaa%04daaaa%04daaaaisle"
    split("registered unregistered not-registered", states, " ")
    for (i = 0; i < records; i++) {
        card = members > 0 ? i % int(records / members) : int(i / 3)
        state = names == "tiny" ? "registered" : states[(members > 0 ? card : i) % 3 + 1]
        printf "\npublic=" public, i
        printf " private=" private, card, 9999 - card
        printf " roaming=isle mandatory=1,2 optional=7 state=%s", state
        if (members > 0) printf " set=1"
        if (state != "not-registered") printf " server=%s", server
        printf " profile=\"<IMSSubscription>%d</IMSSubscription>\"\n", i
    }
}'
